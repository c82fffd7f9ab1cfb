'use strict';

// Plays events at a server that real y-protocols made through `ydoc serve`, lets real y-protocols
// read what it sends, and compares the documents at the end: `node serve.js`. `YD_CASES=PATH` names a
// build of crates/yd_cases; else `rt try` builds one.

const assert = require('node:assert');
const { spawnSync } = require('node:child_process');
const fs = require('node:fs');
const os = require('node:os');
const path = require('node:path');
const Y = require('yjs');
const { Chance } = require('./chance.js');
const { Network, ROOTS, SYNC, Side } = require('./editors.js');
const { newDocument } = require('./session.js');
const { anyEdit } = require('./sessions.js');

const CASES = path.join(__dirname, '..', 'crates', 'yd_cases');
const [NETWORKS, STEPS] = [40, 120];
/** A client of awareness is old after so many milliseconds. */
const OLD = 30000;
/** A client that makes no edits. */
const OBSERVER = 99;

// ---- events

/** An edit by chance of one of the roots. */
function edit(doc, chance) {
  const [text, map, array] = [doc.getText('text'), doc.getMap('map'), doc.getArray('array')];
  const edits = [
    () => anyEdit(chance, 'text')(doc),
    () => anyEdit(chance, 'text')(doc),
    () => text.format(0, text.length, { bold: chance.below(2) === 0 || null }),
    () => map.set(`key${chance.below(3)}`, { by: doc.clientID, list: [1, 'two'] }),
    () => map.delete(`key${chance.below(3)}`),
    () => array.insert(chance.below(array.length + 1), [chance.below(9), 'x']),
    () => array.delete(0, Math.min(array.length, 2)),
  ];
  doc.transact(chance.pick(edits));
}

/** A state by chance. */
function state(editor, chance) {
  editor.side.awareness.setLocalState({ name: `editor ${editor.side.doc.clientID}`, at: chance.below(100) });
}

/** An editor comes, and tells its state. */
function come(network, editor, chance) {
  network.open(editor);
  state(editor, chance);
}

/** One step by chance: an editor edits, takes what lies for it, tells or asks who is there, leaves or comes. */
function step(network, chance) {
  const editor = chance.pick(network.editors);
  const way = chance.below(16);
  if (way === 0) {
    editor.session === null ? come(network, editor, chance) : network.close(editor);
  } else if (way === 1 && editor.session !== null) {
    network.query(editor);
  } else if (way === 2) {
    state(editor, chance);
  } else if (way < 9) {
    network.take(editor);
  } else {
    edit(editor.side.doc, chance);
  }
}

/** A network of real y-protocols at the end of some steps, where all are there and hold the same. */
function played(name) {
  const chance = new Chance(name);
  const first = newDocument(ROOTS);
  first.clientID = 1;
  first.getText('text').insert(0, 'what is served');
  const network = new Network(Y.encodeStateAsUpdate(first), [30, 10, 70000, 20]);
  network.name = name;
  network.first = Y.encodeStateAsUpdate(first);
  network.editors.slice(1).forEach((editor) => come(network, editor, chance));
  for (let at = 0; at < STEPS; at += 1) {
    step(network, chance);
  }
  network.editors.filter(({ session }) => session === null).forEach((editor) => come(network, editor, chance));
  network.settle();
  return network;
}

// ---- what `serve` makes of them

/** The case of a network: its events, and then a moment at which all states are old. */
function caseOf({ name, first, lines }) {
  return [
    `case ${name}`,
    `file FIRST ${Buffer.from(first).toString('hex')}`,
    `words serve x ${lines.length + 1} v1:FIRST`,
    ...lines,
    `moment ${OLD}`,
    'idle',
    'status 0',
    '',
  ].join('\n');
}

/** What came of each case by name: `network`, `out`, and what else is not as a case wants it. */
function answers(networks) {
  const folder = fs.mkdtempSync(path.join(os.tmpdir(), 'interop-serve-'));
  const file = path.join(folder, 'serve.cases');
  fs.writeFileSync(file, networks.map(caseOf).join('\n'));
  // No case says what is sent or written, so that each is told.
  const built = process.env.YD_CASES;
  const words = ['--to-fail', 'serve.cases'];
  const given = ['try', '--seconds', '300', '--data', `serve.cases=${file}`, '--', ...words];
  const { stdout, stderr } = built
    ? spawnSync(path.resolve(built), words, { cwd: folder, maxBuffer: 2 ** 28 })
    : spawnSync('rt', given, { cwd: CASES, maxBuffer: 2 ** 28 });
  fs.rmSync(folder, { recursive: true });
  const told = new Map(networks.map(({ name }) => [name, {}]));
  for (const line of stdout.toString().split('\n')) {
    const found = /: line \d+: (\S+): (\w+): wanted .*?, got (.*), of serve x/.exec(line);
    if (found !== null) {
      told.get(found[1])[found[2]] = found[3];
    }
  }
  assert([...told.values()].every(({ network }) => network !== undefined), `${stdout}${stderr}`);
  return told;
}

/** The sends of a network's lines. */
function sendsOf(told) {
  return JSON.parse(told).trim().split('\n').map((line) => {
    const [word, session, digits] = line.split(' ');
    assert.strictEqual(word, 'sends', line);
    return { session: Number(session), bytes: Buffer.from(digits, 'hex') };
  });
}

// ---- what real y-protocols read of that

/** What a document shows. */
function shown(doc) {
  const map = Object.entries(doc.getMap('map').toJSON()).sort();
  return JSON.stringify([doc.getText('text').toDelta(), map, doc.getArray('array').toJSON()]);
}

/** Who is there, as a side knows it. */
function present({ awareness }) {
  return JSON.stringify([...awareness.getStates()].sort(([one], [other]) => one - other));
}

/**
 * An editor once more, which takes what it made itself and then what it was sent. It does so in one
 * transaction, since a document of Yjs that takes marks of others deletes those that say nothing so
 * far, and nobody is told of that here.
 */
function again(editor, sends) {
  const side = new Side(editor.side.doc.clientID);
  // It makes no more edits, and Yjs would take another client where its own come from outside.
  side.doc.clientID = OBSERVER;
  side.doc.transact(() => {
    [...editor.made, ...sends].forEach((bytes) => {
      const answer = side.takes(bytes, 'serve');
      assert(answer === null || answer[0] === SYNC, 'a server is answered by a step 2 alone');
    });
  });
  return side;
}

/** Compares what came of a network with what real y-protocols made of it. */
function judge(network, answer) {
  assert.strictEqual(answer.status, undefined, `status: ${answer.status}`);
  const sends = sendsOf(answer.network);
  // The last send to each is that all states are old.
  const old = network.editors.length;
  const sentTo = (editor, list) =>
    list.filter(({ session }) => network.owners.get(session) === editor).map(({ bytes }) => bytes);
  const sides = new Map(
    network.editors.map((editor) => [editor, again(editor, sentTo(editor, sends.slice(0, -old)))]),
  );
  const written = newDocument(ROOTS, true);
  Y.applyUpdate(written, Buffer.from(answer.out, 'hex'));
  const wanted = network.server;
  for (const [editor, side] of [...sides, [null, { doc: written }]]) {
    const who = editor === null ? 'what serve wrote' : `editor ${editor.side.doc.clientID}`;
    assert.strictEqual(shown(side.doc), shown(wanted.doc), `${who} shows another document`);
    assert(Y.equalSnapshots(Y.snapshot(side.doc), Y.snapshot(wanted.doc)), `${who} holds another`);
    assert(editor === null || present(side) === present(wanted), `${who} knows of others`);
  }
  for (const [editor, side] of sides) {
    sentTo(editor, sends.slice(-old)).forEach((bytes) => side.takes(bytes, 'serve'));
    assert.deepStrictEqual([...side.awareness.getStates().keys()], [editor.side.doc.clientID]);
  }
  return sends.length;
}

function main() {
  const networks = Array.from({ length: NETWORKS }, (_, at) => played(`network-${at + 1}`));
  const told = answers(networks);
  let [failed, sends] = [0, 0];
  for (const network of networks) {
    try {
      sends += judge(network, told.get(network.name));
    } catch (error) {
      console.log(`interop: serve: ${network.name}: ${error.message}`);
      failed += 1;
    }
  }
  const events = networks.reduce((sum, { lines }) => sum + lines.length + 1, 0);
  console.log(
    failed === 0
      ? `interop: ok, ${networks.length} networks of y-protocols, ${events} events and ${sends} sends`
      : `interop: serve: ${failed} of ${networks.length} networks failed`,
  );
  process.exitCode = failed === 0 ? 0 : 1;
}

main();
