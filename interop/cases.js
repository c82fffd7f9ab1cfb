'use strict';

// Plays the cases of crates/yd_cases through Yjs itself, where Yjs has the call: `node cases.js`
// for those that the program plays, `node cases.js FILE..` for others.

const fs = require('node:fs');
const path = require('node:path');
const decoding = require('lib0/decoding');
const encoding = require('lib0/encoding');
const Y = require('yjs');
const { bytesOf, casesOf, wordsOf } = require('./case_file.js');
const { generated } = require('./generate.js');
const { APPLIED } = require('./session.js');
const { MODES } = require('./shown.js');

const CASES = path.join(__dirname, '..', 'crates', 'yd_cases');

/** The files that yd_cases plays, up to those that have to fail there. */
function filesOfProgram() {
  const words = fs.readFileSync(path.join(CASES, 'args'), 'utf8').trim().split('\n');
  const files = words.slice(0, words.indexOf('--to-fail'));
  return files.map((name) => path.join(CASES, 'data', name));
}

/** A root in a mode, as Yjs has it once it took the files in this order. */
function shown(mode, root, files) {
  const doc = new Y.Doc({ gc: false });
  files.forEach(([form, bytes]) => APPLIED[form](doc, bytes));
  return Buffer.from(`${MODES[mode](doc, root)}\n`);
}

/** An update in a format, as the converters of Yjs write it. */
function converted(to, [form, bytes]) {
  const v2 = form === 'v1' ? Y.convertUpdateFormatV1ToV2(bytes) : bytes;
  if (form === 'v1' && to === 'v2') {
    return Buffer.from(v2);
  }
  const v1 = Y.convertUpdateFormatV2ToV1(v2);
  return Buffer.from(to === 'v1' ? v1 : Y.convertUpdateFormatV1ToV2(v1));
}

/** The log of some updates: each in V1, as a byte string of lib0. */
function packed(updates) {
  const encoder = encoding.createEncoder();
  updates.forEach((update) => encoding.writeVarUint8Array(encoder, converted('v1', update)));
  return Buffer.from(encoding.toUint8Array(encoder));
}

/** The updates of a log: its byte strings up to the end. */
function entriesOf(bytes) {
  const decoder = decoding.createDecoder(bytes);
  const updates = [];
  while (decoding.hasContent(decoder)) {
    updates.push(['v1', decoding.readVarUint8Array(decoder)]);
  }
  return updates;
}

/** The updates for which the file of a word stands, each in its format. */
function updatesOf(files, word) {
  const at = word.indexOf(':');
  const [kind, bytes] = [word.slice(0, at), bytesOf(files.get(word.slice(at + 1)))];
  return kind === 'log' ? entriesOf(bytes) : [[kind, bytes]];
}

/** The merge of some updates, in a format. */
function merged(form, updates) {
  return converted(form, ['v1', Y.mergeUpdates(updates.map((update) => converted('v1', update)))]);
}

/** What an update has from a state vector on, in its own format. */
function cut(vector, [form, bytes]) {
  return Buffer.from(form === 'v1' ? Y.diffUpdate(bytes, vector) : Y.diffUpdateV2(bytes, vector));
}

/** What Yjs makes of words, or null where it has no such call. */
function answer({ files }, words) {
  const read = (from) => words.slice(from).flatMap((word) => updatesOf(files, word));
  if (words[0] === 'show') {
    return shown(words[1], words[2], read(3));
  }
  if (words[0] === 'pack') {
    return packed(read(1));
  }
  if (words[0] === 'merge') {
    return merged(words[1], read(2));
  }
  if (words[0] === 'vector') {
    return Buffer.from(Y.encodeStateVectorFromUpdate(merged('v1', read(1))));
  }
  if (words[0] === 'cut') {
    return cut(bytesOf(files.get(words[1])), read(2)[0]);
  }
  if (words[0] === 'generate') {
    return Buffer.from(generated(Number(words[1])));
  }
  return words[0] === 'convert' ? converted(words[1], read(2)[0]) : null;
}

/** What Yjs makes of words, or what it throws, as bytes. */
function tried(asked, words) {
  try {
    return answer(asked, words);
  } catch (error) {
    return Buffer.from(`${error}`);
  }
}

/**
 * Judges one run. What is wanted is what Yjs makes, unless the case says that this is one spelling of
 * several. A case that says so, and is the same, says too much.
 */
function judge(file, asked, words, got) {
  const wanted = Buffer.concat(asked.out);
  const isSame = got.equals(wanted);
  if (isSame !== Boolean(asked.isOwn)) {
    return true;
  }
  console.log(`interop: ${path.basename(file)}: ${asked.name}: ${words.join(' ')}`);
  console.log(`  wanted: ${isSame ? 'another spelling than that of Yjs' : wanted.toString('hex')}`);
  console.log(`  Yjs: ${got.toString('hex')} ${got}`);
  return false;
}

/** Plays the cases of a file, and gives for each run of which Yjs has the call whether it is right. */
function play(file) {
  const cases = casesOf(fs.readFileSync(file, 'utf8'));
  const asked = cases.filter(({ status, isOfYdocAlone }) => status === 0 && !isOfYdocAlone);
  return asked.flatMap((each) =>
    wordsOf(each)
      .map((words) => [words, tried(each, words)])
      .filter(([, got]) => got !== null)
      .map(([words, got]) => judge(file, each, words, got)),
  );
}

const given = process.argv.slice(2);
const judged = (given.length > 0 ? given : filesOfProgram()).flatMap(play);
const wrong = judged.filter((isRight) => !isRight).length;
console.log(
  wrong === 0
    ? `interop: ok, ${judged.length} runs of cases`
    : `interop: ${wrong} of ${judged.length} runs of cases differ`,
);
process.exitCode = wrong === 0 && judged.length > 0 ? 0 : 1;
