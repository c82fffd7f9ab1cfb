'use strict';

// The cases of undo and redo by script: after an undo Yjs and ydoc show what was shown before the line
// that is undone, and after a redo what was shown behind it. So does the UndoManager of Yjs.

const { isDeepStrictEqual } = require('node:util');
const Y = require('yjs');
const { NEW_CLIENT, chanceOf, scriptCase, scriptOf, shownOf } = require('./edit.js');
const { playedLine } = require('./edit_trees.js');
const { mixedFiles } = require('./files.js');
const { documentOf } = require('./reading.js');

/** How many lines a script has at least, before its undos. */
const LINES = 8;

/** The undos and redos of a script that has more than one. */
const IN_TURN = [
  ['undo', 'redo'],
  ['undo', 'redo', 'undo'],
  ['undo', 'redo', 'undo', 'redo'],
];

/**
 * Lines by chance of which the last neither makes nor deletes a type, since a type is not made again,
 * and what is shown before it and behind it. Each line is an entry of the manager.
 */
function playedLines(session, chance, doc, root) {
  const lines = [];
  for (;;) {
    const before = shownOf(session, doc, root);
    const { line, isUndone } = playedLine(chance, doc, root);
    lines.push(line);
    if (lines.length >= LINES && isUndone) {
      return { lines, before, behind: shownOf(session, doc, root) };
    }
  }
}

/** The case of a script with these undos and redos at its end, by a client that is new. */
function undoCase(session, name, root, turns) {
  const files = mixedFiles(session, session.chance.shuffled(session.updates));
  const doc = documentOf(session.roots, files);
  doc.clientID = NEW_CLIENT;
  const manager = new Y.UndoManager(doc.get(root), { captureTimeout: 0 });
  const { lines, before, behind } = playedLines(session, chanceOf(session, `undo.${name}`), doc, root);
  turns.forEach((turn) => manager[turn]());
  const shown = turns.length % 2 === 0 ? behind : before;
  // Yjs notes no entry of a line that changes nothing, and its manager takes back the line before.
  const as = isDeepStrictEqual(shownOf(session, doc, root), shown) ? 'as-yjs' : 'own';
  const script = scriptOf([...lines, ...turns.map((turn) => [turn])]);
  return scriptCase(session, `undo.${as}-${name}`, root, files, NEW_CLIENT, { script, shown });
}

/** The cases of a session: of each root one undo, and undos and redos in turn. */
function undoCases(session) {
  return Object.keys(session.roots).flatMap((root, at) => [
    undoCase(session, `once-${at}`, root, ['undo']),
    undoCase(session, `in-turn-${at}`, root, session.chance.pick(IN_TURN)),
  ]);
}

module.exports = { undoCases };
