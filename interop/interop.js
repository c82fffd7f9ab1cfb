'use strict';

// Compares ydoc with the real Yjs: `YDOC=PATH node interop.js [WORD]`, where PATH is a program that is
// built. A WORD leaves only the cases whose names have it.

const assert = require('node:assert');
const fs = require('node:fs');
const os = require('node:os');
const path = require('node:path');
const { checkCases } = require('./check.js');
const { convertCases } = require('./convert.js');
const { editCases } = require('./edit.js');
const { mergeCases } = require('./merge.js');
const { answersOf } = require('./program.js');
const { sessions } = require('./sessions.js');
const { showCases } = require('./show.js');
const { undoCases } = require('./undo.js');

/** The cases whose names have the word. */
function casesWith(word) {
  const made = [convertCases, showCases, mergeCases, editCases, undoCases, checkCases];
  const all = sessions().flatMap((session) => made.flatMap((cases) => cases(session)));
  assert.equal(new Set(all.map(({ name }) => name)).size, all.length, 'two cases have one name');
  const cases = all.filter(({ name }) => name.includes(word));
  if (cases.length === 0) {
    throw new Error(`no name of a case has ${word}`);
  }
  return cases;
}

/** Prints what is wrong with a case. */
function tell({ name, words, files }, { lines }, { expected, came }) {
  const given = files.map(({ form, name: file }) => (form === undefined ? file : `${form}:${file}`));
  console.log(`interop: ${name}: ${['ydoc', ...words, ...given].join(' ')}`);
  console.log(`  expected: ${expected}`);
  console.log(`  came: ${[came, ...lines].join('\n  | ')}`);
}

/** Runs the cases, tells each that failed, and gives how many these are, and those that follow. */
async function played(cases, folder) {
  const answers = await answersOf(cases, folder);
  const follow = [];
  let failed = 0;
  for (const asked of cases) {
    const answer = answers.get(asked.name);
    const wrong = asked.judge(answer);
    if (wrong !== null) {
      tell(asked, answer, wrong);
      failed += 1;
    } else if (asked.next !== undefined) {
      follow.push(asked.next(answer));
    }
  }
  return { failed, follow };
}

/** Runs the cases, then those that follow from what came, and gives how many these were and failed. */
async function allPlayed(cases, folder) {
  const first = await played(cases, path.join(folder, 'first'));
  const { follow } = first;
  const then = follow.length > 0 ? await played(follow, path.join(folder, 'then')) : null;
  return [cases.length + follow.length, first.failed + (then?.failed ?? 0)];
}

async function main() {
  const cases = casesWith(process.argv[2] ?? '');
  const folder = fs.mkdtempSync(path.join(os.tmpdir(), 'interop-'));
  const [count, failed] = await allPlayed(cases, folder);
  if (failed === 0) {
    fs.rmSync(folder, { recursive: true });
    console.log(`interop: ok, ${count} cases`);
  } else {
    console.log(`interop: ${failed} of ${count} cases failed; their files are in ${folder}`);
    process.exitCode = 1;
  }
}

main().catch((error) => {
  console.log(`interop: ${error.message}`);
  process.exitCode = 1;
});
