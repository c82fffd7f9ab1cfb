'use strict';

const { inspect } = require('node:util');
const decoding = require('lib0/decoding');
const Y = require('yjs');
const { APPLIED, newDocument } = require('./session.js');

const DECODED = { v1: Y.decodeUpdate, v2: Y.decodeUpdateV2 };
const READ = { v1: Y.readUpdate, v2: Y.readUpdateV2 };

/** A value as text: the same for equal values, in whichever order an object has its keys. */
function written(value) {
  const whole = { depth: null, maxArrayLength: null, maxStringLength: null, sorted: true };
  return inspect(value, { ...whole, breakLength: 100 });
}

/** What a struct holds. */
function contentOf({ content }) {
  switch (content?.constructor) {
    case undefined:
      return null;
    case Y.ContentFormat:
      return { key: content.key, value: content.value };
    case Y.ContentString:
      return content.str;
    case Y.ContentType: {
      const { constructor, nodeName, hookName } = content.type;
      return { type: constructor.name, nodeName, hookName };
    }
    default:
      return content.getContent();
  }
}

/** The structs and the deletions of an update, as Yjs decodes it, each in one order. */
function partsOf(form, bytes) {
  const { structs, ds } = DECODED[form](bytes);
  const byClient = [...ds.clients].sort(([one], [other]) => one - other);
  return {
    structs: structs.map((struct) => {
      const { id, length, origin, rightOrigin, parent, parentSub } = struct;
      const places = { id, length, origin, rightOrigin, parent, parentSub };
      return { kind: struct.constructor.name, ...places, content: contentOf(struct) };
    }),
    deletions: byClient,
  };
}

/** Whether Yjs reads these bytes as an update, to their end. */
function isWhole(form, bytes) {
  try {
    const decoder = decoding.createDecoder(bytes);
    READ[form](decoder, newDocument({}));
    return !decoding.hasContent(decoder);
  } catch {
    return false;
  }
}

/** The clocks that the clients have reached in a document. */
function vectorOf(doc) {
  return Y.decodeStateVector(Y.encodeStateVector(doc));
}

/** What a document shows in its roots, and what it holds and lets wait, for comparing. */
function holdings(doc, roots) {
  const shown = Object.keys(roots).map((name) => {
    const root = doc.get(name);
    return { name, json: root.toJSON(), delta: roots[name] === 'text' ? root.toDelta() : null };
  });
  return {
    shown,
    vector: vectorOf(doc),
    parts: partsOf('v1', Y.encodeStateAsUpdate(doc)),
  };
}

/**
 * A document with these roots that has taken the files, one after another, and again until it takes
 * nothing more: Yjs may let a struct wait although all that it needs has come. One transaction of its
 * own takes them, since in others Yjs deletes marks that say nothing so far.
 */
function documentOf(roots, files) {
  const doc = newDocument(roots);
  let before;
  do {
    before = vectorOf(doc);
    doc.transact(() => files.forEach(({ form, bytes }) => APPLIED[form](doc, bytes)));
  } while (written(vectorOf(doc)) !== written(before));
  return doc;
}

module.exports = { documentOf, holdings, isWhole, partsOf, written };
