'use strict';

// The cases of `ydoc convert`: Yjs reads in what ydoc writes what it reads in what ydoc was given.

const { FORMS, fileOf, mergeOf, stateOf } = require('./files.js');
const { documentOf, holdings, isWhole, partsOf, written } = require('./reading.js');

/** From which format into which: all four ways. */
const WAYS = FORMS.flatMap((from) => FORMS.map((to) => [from, to]));

/** Some lines of two values from shortly before they differ, or null where they are equal. */
function difference(what, expected, came) {
  const [one, other] = [written(expected).split('\n'), written(came).split('\n')];
  const longer = Array.from({ length: Math.max(one.length, other.length) }, (_, at) => at);
  const place = longer.find((at) => one[at] !== other[at]);
  if (place === undefined) {
    return null;
  }
  const shown = (lines) => [what, ...lines.slice(Math.max(0, place - 3), place + 5)].join('\n  | ');
  return { expected: shown(one), came: shown(other) };
}

/**
 * Compares a file with what ydoc made of it: struct by struct, in a document that has taken nothing
 * else, and in one that has taken the files before it.
 */
function compare(roots, before, given, made) {
  const read = [given, made].map(({ form, bytes }) => partsOf(form, bytes));
  const taken = [[], before].map((files) => {
    const documents = [given, made].map((last) => documentOf(roots, [...files, last]));
    return difference('document', ...documents.map((doc) => holdings(doc, roots)));
  });
  return [difference('update', ...read), ...taken].find((found) => found !== null) ?? null;
}

/**
 * The update that ydoc printed. It comes with a line feed behind it, unless its last byte is one:
 * of the two readings that one is taken which Yjs reads as an update to its end.
 */
function updateIn(output, form) {
  return [output.subarray(0, -1), output].find((bytes) => isWhole(form, bytes));
}

/** Judges what ydoc made of a file, or says that Yjs does not take it. */
function judgeUpdate(roots, before, given, form, output) {
  const bytes = updateIn(output, form);
  if (bytes === undefined) {
    return { expected: `an update in ${form}`, came: output.toString('hex') };
  }
  try {
    return compare(roots, before, given, { form, bytes });
  } catch (error) {
    return { expected: 'an update that Yjs takes', came: `${error} of ${bytes.toString('hex')}` };
  }
}

/** The case that ydoc converts an update from one format into another. */
function convertCase(session, update, [from, to], before) {
  const given = fileOf(session, update, from);
  return {
    name: `${session.name}.convert.${update.name}.${from}-to-${to}`,
    words: ['convert', to],
    files: [given],
    judge({ how, status, output }) {
      if (how !== 'ended' || status !== 0) {
        return { expected: 'ended, status 0', came: `${how}, status ${status}` };
      }
      return judgeUpdate(session.roots, before, given, to, output);
    },
  };
}

/** Updates with the files before them, each converted in the next of the four ways. */
function inTurn(session, updates) {
  return updates.map(([update, before], at) => convertCase(session, update, WAYS[at % 4], before));
}

/** Updates with the files before them, each converted in each way. */
function inEachWay(session, updates) {
  return updates.flatMap(([update, before]) =>
    WAYS.map((way) => convertCase(session, update, way, before)),
  );
}

/** The cases of a session: what its documents told, what Yjs makes of all that, and the state of each. */
function convertCases(session) {
  const { chance, updates, passedOn, documents } = session;
  const files = updates.map((update) => fileOf(session, update, 'v1'));
  const leftOut = (at) => at % 3 === 1;
  const merge = mergeOf('merge', updates);
  // What is left out leaves gaps: for it, structs of this merge wait.
  const gapped = mergeOf('merge-with-gaps', updates.filter((_, at) => !leftOut(at)));
  return [
    ...inTurn(session, updates.map((update, at) => [update, files.slice(0, at)])),
    ...inTurn(session, chance.shuffled(passedOn).slice(0, 4).map((update) => [update, []])),
    ...inEachWay(session, [
      [merge, []],
      [gapped, files.filter((_, at) => leftOut(at))],
      ...documents.map((doc, at) => [stateOf(`state-${at + 1}`, doc), []]),
    ]),
  ];
}

module.exports = { convertCases, difference, updateIn };
