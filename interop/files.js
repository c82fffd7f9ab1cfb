'use strict';

const Y = require('yjs');

/** The formats of updates. */
const FORMS = ['v1', 'v2'];

/** An update of a session as a file of one format. */
function fileOf(session, update, form) {
  return { name: `${session.name}/${update.name}.${form}`, form, bytes: update[form] };
}

/** Updates as files, each in a format by chance. */
function mixedFiles(session, updates) {
  return updates.map((update) => fileOf(session, update, session.chance.pick(FORMS)));
}

/** Several updates as one, merged by Yjs. */
function mergeOf(name, updates) {
  const v1 = Y.mergeUpdates(updates.map((update) => update.v1));
  return { name, v1, v2: Y.mergeUpdatesV2(updates.map((update) => update.v2)) };
}

/** All that a document holds, as an update. */
function stateOf(name, doc) {
  return { name, v1: Y.encodeStateAsUpdate(doc), v2: Y.encodeStateAsUpdateV2(doc) };
}

module.exports = { FORMS, fileOf, mergeOf, mixedFiles, stateOf };
