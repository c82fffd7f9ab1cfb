'use strict';

const assert = require('node:assert');
const Y = require('yjs');
const { Chance } = require('./chance.js');

/** How a root of each kind is opened. */
const OPENED = {
  text: (doc, name) => doc.getText(name),
  array: (doc, name) => doc.getArray(name),
  map: (doc, name) => doc.getMap(name),
  fragment: (doc, name) => doc.getXmlFragment(name),
};

/** How an update of each format is applied. */
const APPLIED = { v1: Y.applyUpdate, v2: Y.applyUpdateV2 };

/**
 * A new document with these roots, which are names with kinds. Where it collects, it keeps nothing
 * of what was deleted but how much that was.
 */
function newDocument(roots, gc = false) {
  const doc = new Y.Doc({ gc });
  for (const [name, kind] of Object.entries(roots)) {
    OPENED[kind](doc, name);
  }
  return doc;
}

/** Whether structs or deletions wait in the document. */
function isWaiting(doc) {
  return doc.store.pendingStructs !== null || doc.store.pendingDs !== null;
}

/**
 * Documents of several clients that are edited at the same time, with each update that they told,
 * in both formats.
 */
class Session {
  constructor(name, roots, clients, gc) {
    this.name = gc ? `${name}-collected` : name;
    this.roots = roots;
    this.gc = gc;
    this.chance = new Chance(name);
    /** What edits made, in the order of time: each is `{ name, v1, v2 }`. */
    this.updates = [];
    /** What documents told when they took what others made. */
    this.passedOn = [];
    this.documents = clients.map((client) => this.open(client));
  }

  open(client) {
    const doc = newDocument(this.roots, this.gc);
    doc.clientID = client;
    let told = null;
    doc.on('update', (v1, _origin, _doc, { local }) => {
      const list = local ? this.updates : this.passedOn;
      told = { name: `${local ? 'edit' : 'passed-on'}-${list.length + 1}`, v1 };
      list.push(told);
    });
    // Yjs tells one transaction in V1 and then in V2.
    doc.on('updateV2', (v2) => {
      told.v2 = v2;
    });
    return doc;
  }

  /** Changes a document in one transaction, and gives the updates that came of it. */
  edit(at, change) {
    const before = this.updates.length;
    const doc = this.documents[at];
    doc.transact(() => change(doc));
    return this.updates.slice(before);
  }

  /** Hands one update to a document. */
  pass(update, to, form = 'v1') {
    APPLIED[form](this.documents[to], update[form]);
  }

  /** Brings a document another's reply to its state vector. */
  bring(from, to) {
    const vector = Y.encodeStateVector(this.documents[to]);
    Y.applyUpdate(this.documents[to], Y.encodeStateAsUpdate(this.documents[from], vector));
  }

  /** Brings all documents to the same state. */
  settle() {
    const places = [...this.documents.keys()];
    // Twice, since a document that takes marks of others may delete some that say nothing.
    for (const from of [...places, ...places]) {
      places.filter((to) => to !== from).forEach((to) => this.bring(from, to));
    }
    return this;
  }

  /** The session, once its documents hold the same. */
  settled() {
    this.settle();
    const [first, ...others] = this.documents.map((doc) => Y.snapshot(doc));
    assert(others.every((other) => Y.equalSnapshots(first, other)), `${this.name} is not settled`);
    assert(!this.documents.some(isWaiting), `${this.name} waits`);
    return this;
  }

  /** The names of the roots that are texts. */
  texts() {
    return Object.keys(this.roots).filter((name) => this.roots[name] === 'text');
  }
}

module.exports = { APPLIED, Session, isWaiting, newDocument };
