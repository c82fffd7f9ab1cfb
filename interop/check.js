'use strict';

// The cases of `ydoc check`: it counts what Yjs holds of the same files, and finds that what Yjs wrote
// agrees and keeps the edit rules.

const Y = require('yjs');
const { mixedFiles } = require('./files.js');
const { documentOf } = require('./reading.js');

/** How many units a document holds. */
function heldIn(doc) {
  const clocks = [...Y.decodeStateVector(Y.encodeStateVector(doc)).values()];
  return clocks.reduce((sum, clock) => sum + clock, 0);
}

/** How many of them are deleted. */
function deletedIn(doc) {
  const spans = [...Y.createDeleteSetFromStructStore(doc.store).clients.values()].flat();
  return spans.reduce((sum, { len }) => sum + len, 0);
}

/** What `check` has to tell of a document for which nothing waits, without the number of its lists. */
function expectedOf(doc) {
  const counts = [`held ${heldIn(doc)}`, 'waiting 0', 'waiting deletes 0', `deleted ${deletedIn(doc)}`];
  return [...counts, 'agree yes', 'honest yes'].join('\n');
}

/** The lines that came, without the number of lists: Yjs counts none. */
function linesOf(output) {
  const lines = output.toString().trimEnd().split('\n');
  return lines.filter((line) => !line.startsWith('lists ')).join('\n');
}

/** The case of a session: all its updates, in any order and in both formats. */
function checkCases(session) {
  const files = mixedFiles(session, session.chance.shuffled(session.updates));
  const expected = expectedOf(documentOf(session.roots, files));
  return [
    {
      name: `${session.name}.check`,
      words: ['check'],
      files,
      judge({ how, status, output }) {
        const came = how === 'ended' && status === 0 ? linesOf(output) : `${how}, status ${status}`;
        return came === expected ? null : { expected, came };
      },
    },
  ];
}

module.exports = { checkCases };
