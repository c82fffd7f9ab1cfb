'use strict';

// What a document of Yjs shows of a root in each mode, printed as ydoc prints it.

const Y = require('yjs');

/** How many types inside one another are shown. */
const MOST_TYPES = 100;

/** An object with one key. */
function marked(key, value) {
  return { [`$${key}`]: value };
}

/** The bytes of a float, in four bytes where these are enough. */
function floatOf(number) {
  const size = Math.fround(number) === number ? 4 : 8;
  const bytes = Buffer.alloc(size);
  bytes[size === 4 ? 'writeFloatBE' : 'writeDoubleBE'](number);
  return marked(`raw${size}`, bytes.toString('hex'));
}

/** Whether a number is written as a whole one (lib0, writeAny). */
function isWhole(number) {
  return Number.isInteger(number) && Math.abs(number) <= 2 ** 31 - 1;
}

/** An any-value or a JSON value. */
function plain(value) {
  if (value === undefined) {
    return marked('undefined', true);
  }
  if (typeof value === 'bigint') {
    return marked('big', `${value}`);
  }
  if (typeof value === 'number' && !isWhole(value)) {
    return floatOf(value);
  }
  if (value instanceof Uint8Array) {
    return marked('blob', Buffer.from(value).toString('hex'));
  }
  if (Array.isArray(value)) {
    return value.map(plain);
  }
  if (value !== null && typeof value === 'object') {
    return Object.fromEntries(Object.entries(value).map(([key, each]) => [key, plain(each)]));
  }
  return value;
}

/** An object whose keys stand in the order of their bytes. */
function byKey(entries) {
  return Object.fromEntries(
    entries.sort(([one], [other]) => Buffer.compare(Buffer.from(one), Buffer.from(other))),
  );
}

/** A JSON value: the keys of its objects stand in the order of their bytes. */
function jsonOf(value) {
  if (Array.isArray(value)) {
    return value.map(jsonOf);
  }
  if (value !== null && typeof value === 'object') {
    return byKey(Object.entries(value).map(([key, each]) => [key, jsonOf(each)]));
  }
  return plain(value);
}

/** A nested type by its kind, with at most so many types inside it. */
function typeOf(type, most) {
  if (most === 0) {
    return marked('deep', true);
  }
  const left = most - 1;
  switch (type.constructor) {
    case Y.Map:
      return mapOf(type, left);
    case Y.Text:
      return type.toString();
    case Y.XmlText:
      return deltaOf(type, left);
    case Y.XmlHook:
      return { attributes: mapOf(type, left), hook: type.hookName };
    case Y.XmlElement:
      return { ...treeOf(type, left), name: type.nodeName };
    default:
      return listOf(type, left);
  }
}

/** The values of a content. Those of type `ContentAny` have their keys as they were written. */
function valuesOf(content, most) {
  if (content instanceof Y.ContentType) {
    return [typeOf(content.type, most)];
  }
  const isJson = content instanceof Y.ContentEmbed || content instanceof Y.ContentJSON;
  return content.getContent().map(isJson ? jsonOf : plain);
}

/** The map of a type: what stands last under each key, where it is live and counted. */
function mapOf(type, most) {
  const live = [...type._map].filter(([, item]) => !item.deleted && item.countable);
  return byKey(live.map(([key, { content }]) => [key, valuesOf(content, most).at(-1)]));
}

/** The values of a type's list, with neighbouring text as one string. */
function listOf(type, most) {
  const values = [];
  let wasText = false;
  for (let item = type._start; item !== null; item = item.right) {
    if (item.deleted || !item.countable) {
      continue;
    }
    const isText = item.content instanceof Y.ContentString;
    if (isText && wasText) {
      values.push(values.pop() + item.content.str);
    } else if (isText) {
      values.push(item.content.str);
    } else {
      values.push(...valuesOf(item.content, most));
    }
    wasText = isText;
  }
  return values;
}

/** The delta of a text. Yjs parts text at each mark; here neighbours with equal attributes are one. */
function deltaOf(type, most = MOST_TYPES) {
  const pieces = [];
  for (const { insert, attributes = {} } of Y.Text.prototype.toDelta.call(type)) {
    const under = byKey(Object.entries(attributes).map(([key, value]) => [key, jsonOf(value)]));
    const is = JSON.stringify(under);
    const last = pieces.at(-1);
    if (typeof insert === 'string' && last !== undefined && last.isText && last.is === is) {
      last.insert += insert;
    } else {
      const isText = typeof insert === 'string';
      const isType = insert instanceof Y.AbstractType;
      pieces.push({ is, isText, under, insert: isType ? typeOf(insert, most) : jsonOf(insert) });
    }
  }
  return pieces.map(({ is, under, insert }) =>
    is === '{}' ? { insert } : { attributes: under, insert },
  );
}

/** The map and the list of a type. */
function treeOf(type, most) {
  return { attributes: mapOf(type, most), children: listOf(type, most) };
}

/** The modes, by their words. */
const MODES = {
  '--text': (doc, root) => doc.getText(root).toString(),
  '--delta': (doc, root) => JSON.stringify(deltaOf(doc.getText(root))),
  '--array': (doc, root) => JSON.stringify(listOf(doc.get(root), MOST_TYPES)),
  '--map': (doc, root) => JSON.stringify(mapOf(doc.get(root), MOST_TYPES)),
  '--tree': (doc, root) => JSON.stringify(treeOf(doc.get(root), MOST_TYPES)),
};

module.exports = { MODES, deltaOf };
