'use strict';

// The cases of `ydoc show`: it prints what Yjs shows once it took the same files, in each mode.

const assert = require('node:assert');
const { FORMS, fileOf, mergeOf, mixedFiles, stateOf } = require('./files.js');
const { documentOf } = require('./reading.js');
const { isWaiting } = require('./session.js');
const { MODES } = require('./shown.js');

/** The modes in which a root is shown. Yjs tells texts apart from other roots. */
const MODES_OF = (kind) =>
  Object.keys(MODES).filter((mode) => kind === 'text' || !['--text', '--delta'].includes(mode));

/** What Yjs shows of a root in a mode once it has taken the files. */
function shownOf(session, mode, root, files) {
  return MODES[mode](documentOf(session.roots, files), root);
}

/** The ways in which all updates of a session are handed in. */
function wholes(session) {
  const { chance, updates, passedOn, documents } = session;
  const halves = [0, 1].map((half) => updates.filter((_, at) => at % 2 === half));
  const merges = halves.map((half, at) => mergeOf(`merge-${at + 1}`, half));
  const states = documents.map((doc, at) => stateOf(`state-${at + 1}`, doc));
  const twice = [...updates, ...updates.slice(0, 4), ...passedOn.slice(0, 8)];
  return {
    'in-order-v1': updates.map((update) => fileOf(session, update, 'v1')),
    'in-order-v2': updates.map((update) => fileOf(session, update, 'v2')),
    shuffled: mixedFiles(session, chance.shuffled(updates)),
    repeated: mixedFiles(session, chance.shuffled(twice)),
    'merged-v1': [fileOf(session, mergeOf('merge', updates), 'v1')],
    'merged-v2': [fileOf(session, mergeOf('merge', updates), 'v2')],
    'merged-in-two': merges.map((merge, at) => fileOf(session, merge, FORMS[at])),
    states: mixedFiles(session, chance.shuffled(states)),
    'merged-states': [fileOf(session, mergeOf('merged-states', chance.shuffled(states)), 'v1')],
    'states-and-updates': mixedFiles(session, chance.shuffled([...states, ...updates])),
  };
}

/** Some updates of a session, in any order, such that something waits for those left out. */
function waitingPart(session) {
  const { chance, name, roots, updates } = session;
  for (let draw = 0; draw < 100; draw += 1) {
    const count = Math.max(1, updates.length - 1 - chance.below(3));
    const files = mixedFiles(session, chance.shuffled(updates).slice(0, count));
    if (isWaiting(documentOf(roots, files))) {
      return files;
    }
  }
  throw new Error(`${name}: nothing waits`);
}

/** The case that ydoc shows of these files what Yjs shows of them. */
function showCase(session, name, [mode, root], files) {
  const output = `${shownOf(session, mode, root, files)}\n`;
  return {
    name: `${session.name}.show${mode}.${name}`,
    words: ['show', mode, root],
    files,
    output,
    judge({ how, status, compared }) {
      if (how === 'ended' && status === 0 && compared === 'expected') {
        return null;
      }
      const expected = `ended, status 0, output ${JSON.stringify(output)}`;
      return { expected, came: `${how}, status ${status}, output ${compared}` };
    },
  };
}

/** The roots of a session, each in each of its modes: all texts as texts come first. */
function viewsOf({ roots }) {
  const views = Object.keys(roots).flatMap((root) =>
    MODES_OF(roots[root]).map((mode) => [mode, root]),
  );
  return views.sort(([one], [other]) => (other === '--text') - (one === '--text'));
}

/** The cases of a session: ways of handing in updates and views take turns, until each has come. */
function showCases(session) {
  const views = viewsOf(session);
  const ways = wholes(session);
  for (const [name, files] of Object.entries(ways)) {
    // A delta aside: a document that takes marks of others deletes some that say nothing to it.
    for (const [mode, root] of views.filter(([each]) => each !== '--delta')) {
      const settled = MODES[mode](session.documents[0], root);
      assert.equal(shownOf(session, mode, root, files), settled, `${session.name}: ${name}`);
    }
  }
  if (session.updates.length > 1) {
    ways['waiting-1'] = waitingPart(session);
    ways['waiting-2'] = waitingPart(session);
  }
  const named = Object.entries(ways);
  const turns = Array.from({ length: Math.max(named.length, views.length) }, (_, at) => at);
  return turns.map((at) => {
    const [name, files] = named[at % named.length];
    const once = at < named.length ? name : `${name}-again`;
    return showCase(session, once, views[at % views.length], files);
  });
}

module.exports = { showCase, showCases };
