'use strict';

// The cases of `ydoc edit`: Yjs shows of the update that ydoc makes by a script what it shows of its
// own calls, and ydoc shows the same of it.

const Y = require('yjs');
const { Chance } = require('./chance.js');
const { difference, updateIn } = require('./convert.js');
const { Desk } = require('./edit_desk.js');
const { playedLine, typesIn } = require('./edit_trees.js');
const { mixedFiles, stateOf } = require('./files.js');
const { documentOf } = require('./reading.js');
const { showCase } = require('./show.js');
const { MODES, deltaOf } = require('./shown.js');

/** How many lines a script has. */
const LINES = 24;

/** A client that no session has. */
const NEW_CLIENT = 4000;

/** The mode in which a root of each kind is compared. */
const MODE_OF = { text: '--delta', array: '--array', map: '--map', fragment: '--tree' };

/**
 * What is shown of a root in the mode of its kind, and the delta of each text in it: there a text may
 * be shown without its marks and embeds.
 */
function shownOf(session, doc, root) {
  const texts = typesIn(doc.get(root), [root]).filter(([, type]) => type instanceof Y.Text);
  const deltas = texts.map(([target, text]) => JSON.stringify([target, deltaOf(text)]));
  return [MODES[MODE_OF[session.roots[root]]](doc, root), ...deltas.sort()];
}

/** The draws of a script. */
function chanceOf(session, name) {
  return new Chance(`${session.name}.${name}`);
}

/** Lines as the bytes of a script. */
function scriptOf(lines) {
  return Buffer.from(lines.map((line) => `${JSON.stringify(line)}\n`).join(''));
}

/** A script by chance, and what Yjs shows once its own calls did the same as this client. */
function played(session, name, root, files, client) {
  const chance = chanceOf(session, name);
  const doc = documentOf(session.roots, files);
  doc.clientID = client;
  const desk = new Desk(doc, root);
  const lines = Array.from({ length: LINES }, () => playedLine(chance, doc, root, desk).line);
  return { script: scriptOf(lines), shown: shownOf(session, doc, root) };
}

/**
 * The case that ydoc makes an update by a script, as this client, on what the files hold, of which
 * Yjs and ydoc show this.
 */
function scriptCase(session, name, root, files, client, { script, shown }) {
  const mode = MODE_OF[session.roots[root]];
  const full = `${session.name}.${name}`;
  const made = (output) => ({ name: `${full}.v1`, form: 'v1', bytes: updateIn(output, 'v1') });
  return {
    name: full,
    words: ['edit', `${client}`],
    files: [{ name: `${full}.script`, bytes: script }, ...files],
    judge({ how, status, output }) {
      if (how !== 'ended' || status !== 0) {
        return { expected: 'ended, status 0', came: `${how}, status ${status}` };
      }
      const { bytes } = made(output);
      if (bytes === undefined) {
        return { expected: 'an update in v1', came: output.toString('hex') };
      }
      const taken = documentOf(session.roots, [...files, made(output)]);
      return difference(mode, shown, shownOf(session, taken, root));
    },
    next: ({ output }) => showCase(session, name, [mode, root], [...files, made(output)]),
  };
}

/** The case that an update is made by a script by chance. */
function editCase(session, name, root, files, client) {
  return scriptCase(session, name, root, files, client, played(session, name, root, files, client));
}

/** The cases of a session: a script of a new client, and one of a client that has written. */
function editCases(session) {
  const { chance, documents, updates } = session;
  const states = mixedFiles(session, documents.map((doc, at) => stateOf(`state-${at + 1}`, doc)));
  return Object.keys(session.roots).flatMap((root, at) => [
    editCase(session, `edit.new-${at}`, root, mixedFiles(session, chance.shuffled(updates)), NEW_CLIENT),
    editCase(session, `edit.known-${at}`, root, states, documents[0].clientID),
  ]);
}

module.exports = { NEW_CLIENT, chanceOf, editCases, scriptCase, scriptOf, shownOf };
