'use strict';

// The cases of `ydoc merge`, `cut` and `vector`: Yjs shows of what ydoc makes what it shows of what it
// makes itself, by `mergeUpdates`, `diffUpdate` and `encodeStateVectorFromUpdate`.

const Y = require('yjs');
const { difference, updateIn } = require('./convert.js');
const { FORMS, fileOf, mergeOf, mixedFiles, stateOf } = require('./files.js');
const { documentOf, holdings } = require('./reading.js');

const CUT = { v1: Y.diffUpdate, v2: Y.diffUpdateV2 };

/**
 * What is compared of a document: all that it holds, or without how it holds it. The latter where
 * one file tells in full what another tells as deleted: ydoc goes by the least, and Yjs by the first.
 */
function held(session, files, isToldOnce) {
  const { shown, vector, parts } = holdings(documentOf(session.roots, files), session.roots);
  return isToldOnce ? { shown, vector, parts } : { shown, vector, deletions: parts.deletions };
}

/** Judges an update that ydoc made, beside these files, against the one that Yjs made. */
function judgeMade(session, before, made, form, isToldOnce) {
  return ({ how, status, output }) => {
    if (how !== 'ended' || status !== 0) {
      return { expected: 'ended, status 0', came: `${how}, status ${status}` };
    }
    const bytes = updateIn(output, form);
    if (bytes === undefined) {
      return { expected: `an update in ${form}`, came: output.toString('hex') };
    }
    try {
      const documents = [{ form, bytes: made }, { form, bytes }].map((last) =>
        held(session, [...before, last], isToldOnce),
      );
      return difference('document', ...documents);
    } catch (error) {
      return { expected: 'an update that Yjs takes', came: `${error} of ${bytes.toString('hex')}` };
    }
  };
}

/**
 * The case that ydoc merges these updates, handed in by chance, in one format. It is compared beside
 * the files that are left out, since Yjs joins no runs that wait, and ydoc does.
 */
function mergeCase(session, name, form, updates, leftOut, isToldOnce) {
  return {
    name: `${session.name}.merge.${name}.${form}`,
    words: ['merge', form],
    files: mixedFiles(session, session.chance.shuffled(updates)),
    judge: judgeMade(session, leftOut, mergeOf(name, updates)[form], form, isToldOnce),
  };
}

/** The case that ydoc tells the vector of these updates as Yjs does, byte by byte. */
function vectorCase(session, name, updates, files) {
  const output = Buffer.from(Y.encodeStateVectorFromUpdate(mergeOf(name, updates).v1));
  return {
    name: `${session.name}.vector.${name}`,
    words: ['vector'],
    files,
    output,
    judge({ how, status, compared }) {
      if (how === 'ended' && status === 0 && compared === 'expected') {
        return null;
      }
      const expected = `ended, status 0, output ${output.toString('hex')}`;
      return { expected, came: `${how}, status ${status}, output ${compared}` };
    },
  };
}

/** The case that ydoc cuts an update at the vector of a document that took these files. */
function cutCase(session, name, update, form, before, isToldOnce) {
  const vector = Y.encodeStateVector(documentOf(session.roots, before));
  const given = fileOf(session, update, form);
  return {
    name: `${session.name}.cut.${name}.${form}`,
    words: ['cut'],
    files: [{ name: `${session.name}/${name}.vector`, bytes: vector }, given],
    judge: judgeMade(session, before, CUT[form](given.bytes, vector), form, isToldOnce),
  };
}

/** The cases of a session: merges of its updates and states, their vectors, and cuts. */
function mergeCases(session) {
  const { chance, updates, documents } = session;
  const states = documents.map((doc, at) => stateOf(`state-${at + 1}`, doc));
  const all = [...states, ...updates];
  const files = updates.map((update) => fileOf(session, update, 'v1'));
  const isLeftOut = (at) => at % 3 === 1;
  const some = updates.filter((_, at) => !isLeftOut(at));
  const leftOut = files.filter((_, at) => isLeftOut(at));
  const merge = mergeOf('merge', updates);
  const cuts = [0, 1, 2, 3].map((part) => Math.floor((part * updates.length) / 3));
  return [
    ...FORMS.flatMap((form) => [
      mergeCase(session, 'updates', form, updates, [], true),
      mergeCase(session, 'some', form, some, leftOut, true),
      mergeCase(session, 'all', form, all, [], false),
    ]),
    vectorCase(session, 'updates', updates, mixedFiles(session, chance.shuffled(updates))),
    vectorCase(session, 'some', some, mixedFiles(session, chance.shuffled(some))),
    ...cuts.map((count, at) => {
      const [form, before] = [FORMS[at >> 1], files.slice(0, count)];
      return at % 2 === 0
        ? cutCase(session, `merge-${at}`, merge, form, before, true)
        : cutCase(session, `state-${at}`, states[0], form, before, false);
    }),
  ];
}

module.exports = { mergeCases };
