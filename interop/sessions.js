'use strict';

const Y = require('yjs');
const { Session } = require('./session.js');

const ROOT = 't';
const SMILE = '\u{1f642}';
const WAVE = '\u{1f44b}\u{1f3fd}';
const WORDS = ['a', 'bc', 'def ', 'word ', '\n', 'é', 'жук ', '漢字', SMILE, `${SMILE}${WAVE}`];

// ---- edits of one text

/** An edit that inserts at an index. */
function insert(index, words, root = ROOT) {
  return (doc) => doc.getText(root).insert(index, words);
}

/** An edit that inserts at the end. */
function append(words, root = ROOT) {
  return (doc) => doc.getText(root).insert(doc.getText(root).length, words);
}

/** An edit that deletes a range. */
function remove(index, length, root = ROOT) {
  return (doc) => doc.getText(root).delete(index, length);
}

/** The index, or the one before it where it would part a pair. */
function wholeIndex(text, index) {
  const unit = text.toString().charCodeAt(index);
  return unit >= 0xdc00 && unit <= 0xdfff ? index - 1 : index;
}

/** An edit by chance: a word is inserted, or some units are deleted. No pair is parted. */
function anyEdit(chance, root = ROOT) {
  return (doc) => {
    const text = doc.getText(root);
    const index = wholeIndex(text, chance.below(text.length + 1));
    if (text.length === 0 || chance.below(4) > 0) {
      text.insert(index, chance.pick(WORDS));
    } else {
      text.delete(index, wholeIndex(text, Math.min(text.length, index + 6)) - index);
    }
  };
}

// ---- sessions of texts

/** One document inserts once. */
function oneString(gc) {
  const session = new Session('one-string', { [ROOT]: 'text' }, [1, 2], gc);
  session.edit(0, insert(0, `abc жук ${SMILE}`));
  return session.settled();
}

/** One document types, and another reads. */
function typing(gc) {
  const session = new Session('typing', { [ROOT]: 'text' }, [1, 2], gc);
  for (const word of ['Each ', 'document ', 'tells ', 'what ', 'was ', 'typed', '.\n']) {
    session.edit(0, append(word));
  }
  return session.settled();
}

/** Three documents insert at the same place, again and again. */
function samePlace(gc) {
  const session = new Session('same-place', { [ROOT]: 'text' }, [30, 10, 20], gc);
  for (const round of ['1', '2', '3', '4']) {
    session.edit(0, insert(0, `x${round}`));
    session.edit(1, insert(0, `y${round}`));
    session.edit(2, insert(0, `z${round}`));
    session.settle();
  }
  return session.settled();
}

/** Two documents type letter by letter at the same place, one of them backwards. */
function interleaving(gc) {
  const session = new Session('interleaving', { [ROOT]: 'text' }, [5, 4], gc);
  session.edit(0, insert(0, '[]'));
  session.settle();
  [...'forth'].forEach((letter, at) => {
    session.edit(0, insert(1 + at, letter));
    session.edit(1, insert(1, letter.toUpperCase()));
  });
  return session.settled();
}

/** Documents put words before and behind all others. */
function endsOfText(gc) {
  const session = new Session('ends-of-text', { [ROOT]: 'text' }, [9, 300, 70000], gc);
  for (const round of ['one ', 'two ', 'three ']) {
    session.edit(0, insert(0, round));
    session.edit(1, append(round));
    session.bring(0, 2);
    session.edit(2, insert(0, round.toUpperCase()));
    session.edit(2, append(round.toUpperCase()));
    session.bring(2, 1);
  }
  return session.settled();
}

/** What one document wrote is deleted by others, in ranges that overlap. */
function deletions(gc) {
  const session = new Session('deletions', { [ROOT]: 'text' }, [11, 12, 13], gc);
  session.edit(0, insert(0, 'the first words '));
  session.edit(1, append('and some of another '));
  session.settle();
  session.edit(0, remove(4, 12));
  session.edit(1, remove(8, 14));
  session.edit(2, insert(10, 'amid what is gone '));
  session.settle();
  session.edit(1, remove(0, 3));
  session.edit(2, (doc) => {
    remove(1, 4)(doc);
    append('again')(doc);
  });
  session.settle();
  session.edit(0, remove(0, session.documents[0].getText(ROOT).length));
  session.edit(1, append('and on, with the gaps that follow'));
  session.edit(1, (doc) => [1, 3, 4, 8].forEach((index) => remove(index, 2)(doc)));
  return session.settled();
}

/** Texts with pairs of units, which are inserted and deleted whole. */
function pairs(gc) {
  const session = new Session('pairs', { [ROOT]: 'text' }, [21, 22], gc);
  session.edit(0, insert(0, `a${SMILE}b${SMILE}c`));
  session.settle();
  session.edit(0, insert(3, WAVE));
  session.edit(1, insert(3, `${SMILE}${SMILE}`));
  session.edit(1, remove(1, 2));
  session.settle();
  session.edit(0, append('жук 漢字 é\u0301 \u0000\ufffd\uffff'));
  session.edit(1, insert(0, WAVE));
  return session.settled();
}

/**
 * Pairs that are parted: one half is deleted, or something is inserted between the halves. That
 * stays there: were it deleted, Yjs would go on showing two lone halves, and ydoc the pair.
 */
function lonelyHalves(gc) {
  const session = new Session('lonely-halves', { [ROOT]: 'text' }, [31, 32], gc);
  for (let at = 0; at < 6; at += 1) {
    session.edit(0, append(`${at}${SMILE}`));
  }
  session.settle();
  session.edit(0, remove(1, 1));
  session.edit(0, remove(4, 1));
  session.settle();
  session.edit(0, insert(6, 'between'));
  session.edit(1, remove(8, 1));
  session.edit(1, remove(10, 2));
  session.edit(0, remove(session.documents[0].getText(ROOT).length - 2, 1));
  session.edit(1, remove(session.documents[1].getText(ROOT).length - 1, 1));
  return session.settled();
}

/** Each document is brought only what the one before it in a ring has. */
function partialSyncs(gc) {
  const session = new Session('partial-syncs', { [ROOT]: 'text' }, [103, 101, 104, 102], gc);
  for (let step = 0; step < 20; step += 1) {
    session.edit(step % 4, anyEdit(session.chance));
    if (step % 3 === 0) {
      session.bring(step % 4, (step + 1) % 4);
    }
  }
  return session.settled();
}

/** Updates are passed one by one; half of them are lost, and brought later in any order. */
function lostUpdates(gc) {
  const session = new Session('lost-updates', { [ROOT]: 'text' }, [44, 43, 42], gc);
  const lost = [];
  for (let step = 0; step < 18; step += 1) {
    for (const update of session.edit(step % 3, anyEdit(session.chance))) {
      for (const to of [(step + 1) % 3, (step + 2) % 3]) {
        if (session.chance.below(2) === 0) {
          session.pass(update, to);
        } else {
          lost.push([update, to]);
        }
      }
    }
  }
  session.chance.shuffled(lost).forEach(([update, to]) => session.pass(update, to, 'v2'));
  return session.settled();
}

/** Several texts in one document, one of which stays empty. */
function severalRoots(gc) {
  const roots = { [ROOT]: 'text', 'naïve жук': 'text', [SMILE]: 'text', empty: 'text' };
  const session = new Session('several-roots', roots, [51, 52, 53], gc);
  const edited = Object.keys(roots).filter((root) => root !== 'empty');
  for (let step = 0; step < 15; step += 1) {
    session.edit(step % 3, anyEdit(session.chance, session.chance.pick(edited)));
    if (step % 5 === 4) {
      session.bring(step % 3, (step + 1) % 3);
    }
  }
  // An update of all roots, and one that holds deletions alone.
  session.edit(0, (doc) => edited.forEach((root) => insert(0, 'all', root)(doc)));
  session.edit(0, (doc) => edited.forEach((root) => remove(1, 1, root)(doc)));
  return session.settled();
}

/** Texts whose lengths take two and three bytes, of clients with the greatest numbers of Yjs. */
function longTexts(gc) {
  const session = new Session('long-texts', { [ROOT]: 'text' }, [2 ** 32 - 1, 2 ** 31], gc);
  session.edit(0, insert(0, 'Many words of one paste. '.repeat(800)));
  session.edit(1, insert(0, `${SMILE} `.repeat(100)));
  session.settle();
  session.edit(0, remove(150, 17000));
  session.edit(1, insert(9000, 'amid the paste'));
  session.edit(1, remove(12000, 40));
  return session.settled();
}

/** Edits, syncs and single updates by chance, in so many documents. */
function byChance(gc, count) {
  const clients = [61, 64, 62, 63].slice(0, count);
  const session = new Session(`chance-of-${count}`, { [ROOT]: 'text' }, clients, gc);
  const { chance } = session;
  for (let step = 0; step < 16; step += 1) {
    const at = chance.below(count);
    const updates = session.edit(at, (doc) => {
      for (let edits = 1 + chance.below(2); edits > 0; edits -= 1) {
        anyEdit(chance)(doc);
      }
    });
    const to = (at + 1 + chance.below(count - 1)) % count;
    if (chance.below(3) === 0) {
      session.bring(at, to);
    } else if (chance.below(2) === 0) {
      updates.forEach((update) => session.pass(update, to, chance.pick(['v1', 'v2'])));
    }
  }
  return session.settled();
}

// ---- sessions with more kinds of content

/** Marks and embeds in a text. */
function formatting(gc) {
  const session = new Session('formatting', { [ROOT]: 'text' }, [71, 72], gc);
  const text = (at) => session.documents[at].getText(ROOT);
  session.edit(0, insert(0, 'plain and bold and more'));
  session.settle();
  session.edit(0, () => text(0).format(6, 8, { bold: true }));
  session.edit(1, () => text(1).format(10, 9, { bold: true, link: { to: 'x', at: [1, null] } }));
  session.edit(1, () => text(1).insertEmbed(3, { src: 'picture', alt: `"${SMILE}"\n`, size: 640 }));
  session.settle();
  session.edit(0, () => text(0).insert(8, 'amid', { bold: null, size: -2147483647 }));
  session.edit(1, () => text(1).format(0, 12, { bold: null }));
  session.edit(1, () => text(1).delete(2, 5));
  session.settle();
  session.edit(0, () => text(0).insertEmbed(0, ['a', 1, false]));
  return session.settled();
}

/** Lists and maps, one in another, with values of each kind. */
function listsAndMaps(gc) {
  const roots = { list: 'array', map: 'map', [ROOT]: 'text' };
  const session = new Session('lists-and-maps', roots, [81, 82, 83], gc);
  const list = (at) => session.documents[at].getArray('list');
  const map = (at) => session.documents[at].getMap('map');
  session.edit(0, () => list(0).insert(0, [1, -70, 2147483647, true, false, null, `x${SMILE}`]));
  session.edit(1, () => list(1).insert(0, [0.5, -1e300, 2 ** 40, { z: [undefined, {}], a: 5n }]));
  session.edit(2, () => list(2).insert(0, [new Uint8Array([0, 255]), new Y.Array(), new Y.Map()]));
  session.settle();
  session.edit(0, () => list(0).delete(2, 7));
  session.edit(0, () => map(0).set('title', 'one'));
  session.edit(1, () => map(1).set('title', { n: 2 }));
  session.edit(2, () => map(2).set('inner', new Y.Map([['deep', new Y.Text('words')]])));
  session.settle();
  session.edit(0, () => map(0).get('inner').set('deeper', Y.Array.from([1, 'b'])));
  session.edit(1, () => map(1).get('inner').get('deep').insert(5, ' of another'));
  session.edit(2, () => map(2).delete('title'));
  session.edit(2, insert(0, 'a text beside them'));
  session.settle();
  session.edit(0, () => map(0).set('title', 'three'));
  session.edit(1, () => map(1).delete('inner'));
  return session.settled();
}

/** A tree of elements, with attributes, a text and a hook. */
function elements(gc) {
  const session = new Session('elements', { tree: 'fragment' }, [91, 92], gc);
  const tree = (at) => session.documents[at].getXmlFragment('tree');
  session.edit(0, () => tree(0).insert(0, [new Y.XmlElement('p'), new Y.XmlText('words')]));
  session.settle();
  session.edit(0, () => tree(0).get(0).setAttribute('class', 'wide'));
  session.edit(1, () => tree(1).get(0).setAttribute('class', 'narrow'));
  session.edit(1, () => tree(1).get(0).insert(0, [new Y.XmlText('inside'), new Y.XmlElement('p')]));
  session.edit(0, () => tree(0).insert(1, [new Y.XmlHook('chart')]));
  session.settle();
  session.edit(0, () => tree(0).get(0).removeAttribute('class'));
  session.edit(1, () => tree(1).get(2).insert(5, ' more'));
  session.edit(1, () => tree(1).delete(1, 1));
  return session.settled();
}

/** Lists and texts in a list, which are deleted while others write into them. */
function deletedTypes(gc) {
  const roots = { list: 'array', [ROOT]: 'text' };
  const session = new Session('deleted-types', roots, [95, 96, 97], gc);
  const list = (at) => session.documents[at].getArray('list');
  session.edit(0, () => list(0).insert(0, [Y.Array.from([1, 2, 3]), new Y.Text('words')]));
  session.settle();
  session.edit(0, () => list(0).delete(0, 1));
  session.edit(1, () => list(1).get(0).push([4, Y.Array.from([5, 6])]));
  session.edit(1, append('beside it'));
  session.settle();
  session.edit(2, () => list(2).get(0).insert(0, 'more '));
  session.edit(0, () => list(0).delete(0, 1));
  session.edit(1, () => list(1).insert(1, [new Y.Map([['key', new Y.Text('deep')]])]));
  session.settle();
  session.edit(2, remove(0, 4));
  session.edit(1, () => list(1).delete(0, 1));
  session.edit(0, insert(0, 'and in front '));
  return session.settled();
}

/**
 * What was done is undone, and done again, by the undo manager of Yjs, while others edit on: text and
 * marks, values, what stands under keys, and types that were deleted with all that lies in them.
 */
function undoing(gc) {
  const roots = { tree: 'fragment', list: 'array', map: 'map', [ROOT]: 'text' };
  const session = new Session('undoing', roots, [85, 86], gc);
  const managers = session.documents.map((doc) => {
    const types = [doc.getText(ROOT), doc.getArray('list'), doc.getMap('map'), doc.getXmlFragment('tree')];
    return new Y.UndoManager(types, { captureTimeout: 0 });
  });
  const list = (at) => session.documents[at].getArray('list');
  const map = (at) => session.documents[at].getMap('map');
  const tree = (at) => session.documents[at].getXmlFragment('tree');
  session.edit(0, insert(0, `one two ${SMILE} three`));
  session.edit(1, () => list(1).insert(0, [1, Y.Array.from([2, 'b']), new Y.Map([['x', 7]])]));
  session.edit(0, () => tree(0).insert(0, [new Y.XmlElement('p'), new Y.XmlText('words')]));
  session.settle();
  session.edit(0, remove(4, 7));
  session.edit(0, (doc) => doc.getText(ROOT).format(0, 3, { bold: true }));
  session.edit(1, insert(6, 'amid '));
  session.settle();
  managers[0].undo();
  managers[0].undo();
  managers[0].redo();
  session.settle();
  managers[0].undo();
  session.edit(1, () => map(1).set('k', 1));
  session.edit(1, () => map(1).set('k', { two: 2 }));
  managers[1].undo();
  session.edit(0, () => map(0).set('k', 'three'));
  session.settle();
  session.edit(1, () => map(1).delete('k'));
  managers[1].undo();
  session.edit(1, () => list(1).delete(0, 2));
  session.settle();
  managers[1].undo();
  session.edit(0, () => list(0).push([3]));
  session.settle();
  session.edit(0, () => tree(0).get(0).setAttribute('class', 'wide'));
  session.edit(0, () => tree(0).get(0).insert(0, [new Y.XmlText('inside')]));
  session.edit(0, () => tree(0).delete(0, 1));
  managers[0].undo();
  session.settle();
  managers[0].redo();
  managers[0].undo();
  managers[0].undo();
  return session.settled();
}

/** All sessions of documents that collect, or of such that do not. */
function sessionsWith(gc) {
  const ofTexts = [oneString, typing, samePlace, interleaving, endsOfText, deletions];
  const ofUnits = [pairs, lonelyHalves, longTexts];
  const ofSyncs = [partialSyncs, lostUpdates, severalRoots];
  const ofContents = [formatting, listsAndMaps, elements, deletedTypes, undoing];
  const made = [...ofTexts, ...ofUnits, ...ofSyncs, ...ofContents].map((session) => session(gc));
  return [...made, ...[2, 3, 4].map((count) => byChance(gc, count))];
}

/** All sessions, made anew, and always the same: each with what is deleted kept, and collected. */
function sessions() {
  return [false, true].flatMap(sessionsWith);
}

module.exports = { anyEdit, sessions };
