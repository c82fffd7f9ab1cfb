'use strict';

const { spawn } = require('node:child_process');
const fs = require('node:fs');
const os = require('node:os');
const path = require('node:path');

/** Writes a file and the folders above it. */
function put(file, bytes) {
  fs.mkdirSync(path.dirname(file), { recursive: true });
  fs.writeFileSync(file, bytes);
}

/** The word of a file, which lies in the folder: its name alone where it has no format. */
function wordOf({ form, name }, folder) {
  const file = path.join(folder, name);
  return form === undefined ? file : `${form}:${file}`;
}

/** The words of a case: those that it begins with, and its files. */
function wordsOf({ words, files }, folder) {
  return [...words, ...files.map((file) => wordOf(file, folder))];
}

/** Runs the program that `YDOC` names, and gives its status and what came on the two streams. */
function run(words) {
  return new Promise((resolve, reject) => {
    const child = spawn(process.env.YDOC, words, { stdio: ['ignore', 'pipe', 'pipe'] });
    const [out, err] = [[], []];
    child.stdout.on('data', (bytes) => out.push(bytes));
    child.stderr.on('data', (bytes) => err.push(bytes));
    child.on('error', reject);
    child.on('close', (status, signal) => {
      const how = signal === null ? 'ended' : signal;
      resolve({ how, status, output: Buffer.concat(out), err: Buffer.concat(err).toString() });
    });
  });
}

/** What came of a case: how it ended, its status and output, and the lines of the error stream. */
async function answerOf(asked, folder) {
  const { how, status, output, err } = await run(wordsOf(asked, folder));
  const same = asked.output !== undefined && output.equals(Buffer.from(asked.output));
  return { how, status, output, compared: same ? 'expected' : 'other', lines: err.split('\n') };
}

/**
 * Runs the program once for each case, as many side by side as there are processors, and gives what
 * came by the names of the cases. A case has a name, words, files behind them, and perhaps the output
 * that is wanted.
 */
async function answersOf(cases, folder) {
  // Cases share files, so all lie there before the first case runs.
  cases.forEach(({ files }) => files.forEach(({ name, bytes }) => put(path.join(folder, name), bytes)));
  const answers = new Map();
  const left = [...cases];
  const lane = async () => {
    for (let asked = left.pop(); asked !== undefined; asked = left.pop()) {
      answers.set(asked.name, await answerOf(asked, folder));
    }
  };
  await Promise.all(os.cpus().map(lane));
  return answers;
}

module.exports = { answersOf };
