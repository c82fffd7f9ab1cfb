'use strict';

// Lines of a script on roots and the types in them: what each is in Yjs, and lines by chance.

const Y = require('yjs');
const texts = require('./edit_texts.js');

const KEYS = ['at', 'class', 'жук'];
// The keys of an object come in the order of their bytes, in which ydoc writes them.
const VALUES = [0, -7, 'x', 'жук', null, true, [], { at: [1, null], to: 'x' }];
const KINDS = ['array', 'map', 'text', 'fragment', 'elementtext', ['element', 'p']];
const XML_KINDS = ['elementtext', ['element', 'p'], ['element', 'br']];

/** A new type of a kind. */
const MADE = {
  array: () => new Y.Array(),
  map: () => new Y.Map(),
  text: () => new Y.Text(),
  fragment: () => new Y.XmlFragment(),
  elementtext: () => new Y.XmlText(),
};

/** A new type, by its kind in a script. */
function madeOf(kind) {
  return Array.isArray(kind) ? new Y.XmlElement(kind[1]) : MADE[kind]();
}

/** Puts a value or a type under a key. Attributes of an element are its map. */
function put(type, key, value) {
  return type instanceof Y.Map ? type.set(key, value) : type.setAttribute(key, value);
}

/** What each line is in Yjs. */
const PLAYED = {
  ...texts.PLAYED,
  push: (type, index, values) => type.insert(index, values),
  child: (type, index, kind) => type.insert(index, [madeOf(kind)]),
  set: (type, key, value) => put(type, key, value),
  settype: (type, key, kind) => put(type, key, madeOf(kind)),
  unset: (type, key) => (type instanceof Y.Map ? type.delete(key) : type.removeAttribute(key)),
};

/** The live counted items of a type's list, each with its index. */
function itemsOf(type) {
  const items = [];
  let index = 0;
  for (let item = type._start; item !== null; item = item.right) {
    if (!item.deleted && item.countable) {
      items.push([index, item]);
      index += item.length;
    }
  }
  return items;
}

/** The keys of a type that have a live value, each with its item. */
function keysOf(type) {
  return [...type._map].filter(([, item]) => !item.deleted && item.countable);
}

/** A type and all live types in it, each with its target. */
function typesIn(type, target) {
  const inside = [...itemsOf(type), ...keysOf(type)].filter(([, { content }]) => content instanceof Y.ContentType);
  return [[target, type], ...inside.flatMap(([step, { content }]) => typesIn(content.type, [...target, step]))];
}

/** One of these types by chance, each with its target: mostly a text, where there is one. */
function anyOf(chance, types) {
  const inTexts = types.filter(([, type]) => type instanceof Y.Text);
  return chance.pick(inTexts.length > 0 && chance.below(3) > 0 ? inTexts : types);
}

/** Edits by chance that are right for a type as it is. */
function editsOf(chance, type, target) {
  const index = chance.below(type.length + 1);
  const child = (kinds) => ['child', target, index, chance.pick(kinds)];
  const fewer = type.length > 0 ? [['delete', target, chance.below(type.length), 1]] : [];
  const keyed = [
    ['set', target, chance.pick(KEYS), chance.pick(VALUES)],
    ['settype', target, chance.pick(KEYS), chance.pick(KINDS)],
    ...keysOf(type).map(([key]) => ['unset', target, key]),
  ];
  switch (type.constructor) {
    case Y.Array:
      return [['push', target, index, [chance.pick(VALUES), chance.pick(VALUES)]], child(KINDS), ...fewer];
    case Y.Map:
      return keyed;
    case Y.XmlFragment:
      return [child(XML_KINDS), ...fewer];
    case Y.XmlElement:
      return [child(XML_KINDS), ...fewer, ...keyed];
    default:
      return texts.linesOfText(chance, type, target);
  }
}

/** Whether a line makes a type, or deletes half of a character; such a line is not undone here. */
function isLasting([word, , ...rest], type) {
  const isDeletion = word === 'delete' && type instanceof Y.Text;
  return word === 'child' || word === 'settype' || (isDeletion && texts.hasLoneHalf(type, ...rest));
}

/**
 * Carries out a line by chance on a root or a type in it, and gives the line, and whether it can be
 * undone: a type is not made again. Without a desk it is an edit.
 */
function playedLine(chance, doc, root, desk) {
  const types = typesIn(doc.get(root), [root]);
  const [steps, type] = anyOf(chance, types);
  const target = steps.length === 1 && chance.below(2) === 0 ? root : steps;
  const line = chance.pick([...editsOf(chance, type, target), ...(desk?.lines(chance, type, target) ?? [])]);
  const isLastingLine = isLasting(line, type);
  if (!desk?.play(line, type)) {
    const [word, , ...rest] = line;
    PLAYED[word](type, ...rest);
  }
  const isUndone = !isLastingLine && typesIn(doc.get(root), [root]).length === types.length;
  desk?.note(line, isUndone);
  return { line, isUndone };
}

module.exports = { playedLine, typesIn };
