'use strict';

// A large text that three documents of Yjs make by steps drawn from a number.

const Y = require('yjs');

/** Numbers below 2^15, the same at each run: ISO C's example of rand. */
function draws() {
  let state = 1n;
  return () => {
    state = (1103515245n * state + 12345n) % 2n ** 31n;
    return Number(state / 65536n);
  };
}

/** One edit of a text by three draws: a letter is inserted, or one unit is deleted. */
function edit(text, x, y, z) {
  if (text.length === 0 || x % 4 !== 3) {
    text.insert(y % (text.length + 1), String.fromCharCode(0x61 + (z % 26)));
  } else {
    text.delete(y % text.length, 1);
  }
}

/** A document takes the reply of another, in V1 or in V2. */
function pass(from, to, form) {
  const vector = Y.encodeStateVector(to);
  if (form === 'v1') {
    Y.applyUpdate(to, Y.encodeStateAsUpdate(from, vector));
  } else {
    Y.applyUpdateV2(to, Y.encodeStateAsUpdateV2(from, vector));
  }
}

/** The three documents behind so many steps, and two rounds of replies. */
function documents(steps) {
  const docs = [1, 2, 3].map((client) =>
    Object.assign(new Y.Doc({ gc: false }), { clientID: client }),
  );
  const draw = draws();
  for (let step = 1; step <= steps; step += 1) {
    const doc = docs[step % 3];
    edit(doc.getText('g'), draw(), draw(), draw());
    if (step % 10 === 0) {
      pass(doc, docs[(step + 1) % 3], step % 20 === 0 ? 'v1' : 'v2');
    }
  }
  for (const [from, to] of [0, 1, 2, 0, 1, 2].map((at) => [docs[at], docs[(at + 1) % 3]])) {
    pass(from, to, 'v1');
  }
  return docs;
}

/** The state vector of a document, and its deleted spans, in ascending order. */
function kept(doc) {
  const clocks = [...Y.decodeStateVector(Y.encodeStateVector(doc))].sort(([a], [b]) => a - b);
  const deletes = [...Y.createDeleteSetFromStructStore(doc.store).clients]
    .flatMap(([client, spans]) => spans.map(({ clock, len }) => [client, clock, len]))
    .sort(([a, clock], [b, other]) => a - b || clock - other);
  return { clocks, deletes };
}

/** The line that is told of so many steps. */
function generated(steps) {
  const docs = documents(steps);
  const told = docs.map((doc) => JSON.stringify([doc.getText('g').toString(), kept(doc)]));
  const { clocks, deletes } = kept(docs[0]);
  const held = clocks.reduce((sum, [, clock]) => sum + clock, 0);
  const deleted = deletes.reduce((sum, [, , len]) => sum + len, 0);
  const equal = told.every((each) => each === told[0]) ? 'yes' : 'no';
  return `held ${held} deleted ${deleted} length ${docs[0].getText('g').length} equal ${equal}\n`;
}

module.exports = { generated };
