'use strict';

/** Draws that are the same in each run: the generator mulberry32, begun from a name. */
class Chance {
  constructor(name) {
    this.state = 0;
    for (const unit of name) {
      this.state = (Math.imul(this.state, 31) + unit.codePointAt(0)) >>> 0;
    }
  }

  /** A whole number from 0 to `count` - 1. */
  below(count) {
    this.state = (this.state + 0x6d2b79f5) >>> 0;
    let mixed = Math.imul(this.state ^ (this.state >>> 15), this.state | 1);
    mixed ^= mixed + Math.imul(mixed ^ (mixed >>> 7), mixed | 61);
    return Math.floor((((mixed ^ (mixed >>> 14)) >>> 0) / 2 ** 32) * count);
  }

  /** One member of the list. */
  pick(list) {
    return list[this.below(list.length)];
  }

  /** The members of the list in another order. */
  shuffled(list) {
    const left = [...list];
    const order = [];
    while (left.length > 0) {
      order.push(...left.splice(this.below(left.length), 1));
    }
    return order;
  }
}

module.exports = { Chance };
