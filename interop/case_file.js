'use strict';

// Files of cases, as docs/CASES.md says how they are written.

/** The text before the first space, and what stands behind it. */
function split(text) {
  const at = text.indexOf(' ');
  return at < 0 ? [text, ''] : [text.slice(0, at), text.slice(at + 1)];
}

/** Bytes in groups of hexadecimal digits, where `GROUP*N` is a group N times. */
function bytesOf(text) {
  const groups = text.split(' ').filter((group) => group !== '');
  return Buffer.concat(
    groups.map((group) => {
      const [digits, times = '1'] = group.split('*');
      const bytes = Buffer.from(digits, 'hex');
      return Buffer.alloc(bytes.length * Number(times), bytes);
    }),
  );
}

/** All orders of some words. */
function orders(words) {
  if (words.length < 2) {
    return [words];
  }
  const others = (at) => words.filter((_, other) => other !== at);
  return words.flatMap((word, at) => orders(others(at)).map((rest) => [word, ...rest]));
}

/** What the lines of a case say, by their first words. */
const LINES = {
  file: (found, rest) => found.files.set(...split(rest)),
  words: (found, rest) => found.runs.push({ words: rest === '' ? [] : rest.split(' '), loose: [] }),
  word: (found, rest) => found.runs.at(-1).words.push(rest),
  'in-every-order': (found, rest) => found.runs.at(-1).loose.push(...rest.split(' ')),
  status: (found, rest) => {
    found.status = Number(rest);
  },
  out: (found, rest) => found.out.push(Buffer.from(`${rest}\n`)),
  'out-bytes': (found, rest) => found.out.push(bytesOf(rest)),
  'out-file': (found, rest) => found.out.push(bytesOf(found.files.get(rest))),
  'own-spelling': (found) => {
    found.isOwn = true;
  },
};

/** Lines on what fails outside, on a network, and on how a refusal is told: Yjs has no call for these. */
const OF_YDOC_ALONE = /^(err|err-at|err-bytes|fronts|piece|(library|out|err|board)-fails)$/;
const OF_A_NETWORK = /^(opened|received|closed|idle|moment|sends|fails-to-send|closes)$/;

/** Reads a file of cases. Each case has the files that stand before the first one. */
function casesOf(text) {
  const shared = { files: new Map() };
  const cases = [];
  for (const line of text.split('\n').filter((each) => each !== '' && !each.startsWith('#'))) {
    const [word, rest] = split(line);
    if (word === 'case') {
      cases.push({ name: rest, files: new Map(shared.files), runs: [], out: [] });
    } else if (OF_YDOC_ALONE.test(word) || OF_A_NETWORK.test(word)) {
      (cases.at(-1) ?? shared).isOfYdocAlone = true;
    } else if (LINES[word] !== undefined) {
      LINES[word](cases.at(-1) ?? shared, rest);
    } else {
      throw new Error(`no line of a case begins with ${word}`);
    }
  }
  return cases;
}

/** The words of each run of a case, in each of its orders. */
function wordsOf({ runs }) {
  return runs.flatMap(({ words, loose }) => orders(loose).map((order) => [...words, ...order]));
}

module.exports = { bytesOf, casesOf, wordsOf };
