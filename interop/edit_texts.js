'use strict';

// Edits of a text, wherever it lies: what each line of a script is in Yjs, and lines by chance.

const WORDS = ['a', 'bc ', 'жук', '\n', '\u{1f642}', 'def\u{1f642}'];
const KEYS = ['bold', 'link', 'size'];
const VALUES = [true, null, 7, { to: 'x', at: [1, null] }, 'wide'];
const EMBEDS = [{ image: 'x.png' }, { formula: 'a', size: 2 }];

/** What each line is in Yjs. */
const PLAYED = {
  insert: (text, index, words) => text.insert(index, words),
  embed: (text, index, value) => text.insertEmbed(index, value, attributesBehind(text, index)),
  delete: (text, index, length) => text.delete(index, length),
  format: (text, index, length, key, value) => text.format(index, length, { [key]: value }),
};

/** The units of a text that are counted, each with its attributes: an embed is one. */
function unitsOf(text) {
  return text.toDelta().flatMap(({ insert, attributes = {} }) => {
    const units = typeof insert === 'string' ? insert.split('') : [''];
    return units.map((unit) => ({ unit, attributes }));
  });
}

/** The attributes of what is put at an index: those of the unit before it. Yjs gives an embed none. */
function attributesBehind(text, index) {
  return index === 0 ? {} : { ...unitsOf(text)[index - 1].attributes };
}

/**
 * The indexes at which no half of a character stands, nor what is shown for one: whether two halves
 * stand side by side is no question of edits. Without any of these it is the front.
 */
function placesOf(text) {
  const units = unitsOf(text);
  const isWhole = (at) => !/[\ud800-\udfff\ufffd]/.test(units[at]?.unit ?? '');
  const places = [...units.keys(), units.length].filter((at) => isWhole(at - 1) && isWhole(at));
  return places.length > 0 ? places : [0];
}

/** Whether a range has half of a character without the other: such a half is not always made again. */
function hasLoneHalf(text, index, length) {
  const units = unitsOf(text).slice(index, index + length);
  return /[\ud800-\udfff\ufffd]/u.test(units.map(({ unit }) => unit || ' ').join(''));
}

/** A word by chance to insert. */
function wordFor(chance) {
  return chance.pick(WORDS);
}

/** Lines by chance that are right for the text as it is. A range spans few of its places. */
function linesOfText(chance, text, target) {
  const places = placesOf(text);
  const index = chance.pick(places);
  const ends = places.filter((at) => at > index).slice(0, 8);
  const range = () => [target, index, chance.pick(ends) - index];
  return [
    ['insert', target, index, wordFor(chance)],
    ['embed', target, index, chance.pick(EMBEDS)],
    ...(ends.length === 0 ? [] : [['delete', ...range()]]),
    ...(ends.length === 0 ? [] : [['format', ...range(), chance.pick(KEYS), chance.pick(VALUES)]]),
  ];
}

module.exports = { PLAYED, hasLoneHalf, linesOfText, placesOf, wordFor };
