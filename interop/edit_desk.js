'use strict';

// What a script keeps from line to line, and the lines that use it: places and undos.

const Y = require('yjs');
const { placesOf, wordFor } = require('./edit_texts.js');

const NAMES = ['p', 'q'];

/**
 * The words of lines behind which one is undone, or done again. A format is none: Yjs notes nothing of
 * one that changes nothing.
 */
const TURNED = ['insert', 'insertat', 'embed', 'delete', 'push', 'set', 'unset', 'undo', 'redo'];

/** The places that a script keeps in a document, and the undos and redos that may come next. */
class Desk {
  constructor(doc, root) {
    this.doc = doc;
    this.kept = new Map();
    this.manager = new Y.UndoManager(doc.get(root), { captureTimeout: 0 });
    this.turns = [];
  }

  /** Lines by chance that are right for the document as it is; this type with its target is marked. */
  lines(chance, type, target) {
    const names = this.names();
    const mark = () => [chance.pick(NAMES), target, chance.pick(placesOf(type)), chance.pick([0, -1])];
    return [
      ...(type instanceof Y.Text ? [['mark', ...mark()]] : []),
      ...(names.length > 0 ? [['insertat', chance.pick(names), wordFor(chance)]] : []),
      ...this.turns.map((turn) => [turn]),
    ];
  }

  /** The names of the kept places that stand in live texts, where no half of a character stands now. */
  names() {
    return [...this.kept].flatMap(([name, place]) => {
      const { type, index } = this.found(place);
      return type._item?.deleted !== true && placesOf(type).includes(index) ? [name] : [];
    });
  }

  /** In which type a place stands now, and at which index. */
  found(place) {
    return Y.createAbsolutePositionFromRelativePosition(place, this.doc);
  }

  /** Carries out a line on this type, where it is one of the desk, and says whether it is. */
  play([word, name, ...rest], type) {
    const place = this.kept.get(name);
    this.forgetDeleted();
    switch (word) {
      case 'mark':
        this.kept.set(name, Y.createRelativePositionFromTypeIndex(type, ...rest.slice(1)));
        return true;
      case 'insertat':
        this.insertAt(place, ...rest);
        return true;
      case 'undo':
      case 'redo':
        // A place of Yjs goes on to what is made again, and one of ydoc does not.
        this.kept.clear();
        this.manager[word]();
        return true;
      default:
        return false;
    }
  }

  /** Inserts where a place stands now. */
  insertAt(place, words) {
    const { type, index } = this.found(place);
    type.insert(index, words);
  }

  /**
   * Forgets the places whose units are deleted, or whose text. A line behind the deletion may still go
   * there; what comes later may stand on the other side of a deleted unit than it does in Yjs.
   */
  forgetDeleted() {
    const isDeleted = (id) => id !== null && Y.getItem(this.doc.store, id).deleted;
    const gone = [...this.kept].filter(([, { item, type }]) => isDeleted(item) || isDeleted(type));
    gone.forEach(([name]) => this.kept.delete(name));
  }

  /** Notes what may come behind a line: of an undo the redo, and of another that can be undone the undo. */
  note([word], isUndone) {
    const turn = word === 'undo' ? 'redo' : 'undo';
    this.turns = isUndone && TURNED.includes(word) ? [turn] : [];
  }
}

module.exports = { Desk };
