// @ts-check
// The rows of a log, read from its bytes.
//
// A row is given on as numbers: its time, its head (queue, agent, call and answer), the number of its message, where its
// detail begins, and where it ends. -1 stands for none.

import { textOf } from './units.js';

export const ZERO = 48;
const COMMA = 44, NINE = 57, QUOTE = 34, LINE_END = 10;

/** @typedef {Uint8Array | Uint32Array | Int32Array | Float64Array} Kinds */
/**
 * What rows share that have the same queue, agent, call and answer. `take` is called with a row of them. `went` is
 * where the last of them says to which queue its message went.
 * @typedef {{ queue: import('./queue.js').Queue, number: number, agent: string, kind: string,
 *   times: Numbers<Uint32Array> | null, take: Taker, went?: { from: number, length: number } }} Made
 */
/** @typedef {Made & { from: number, length: number }} Head */
/** @typedef {(queue: string, agent: string, call: string, answer: string) => Made} Making */
/**
 * @typedef {(time: number, head: Head, message: number, from: number, to: number) => void} Taker
 */

// Numbers of one kind that grow as they are added to.
/** @template {Kinds} Kind */
export class Numbers {
  /** @param {new (length: number) => Kind} kind */
  constructor(kind) {
    this.kind = kind;
    this.items = new kind(64);
    this.length = 0;
  }

  /** @param {number} number */
  push(number) {
    if (this.length === this.items.length) {
      const longer = new this.kind(2 * this.length);
      longer.set(this.items);
      this.items = longer;
    }
    this.items[this.length++] = number;
  }

  /** @returns {Kind} */
  get whole() {
    return /** @type {Kind} */ (this.items.subarray(0, this.length));
  }
}

/** @param {number} byte */
const isDigit = byte => byte >= ZERO && byte <= NINE;

// The fields of a line without quotes in it.
/** @param {string} line */
const fieldsOf = line => line.split(',');

// Where the line that begins at a place ends, its line feed counted.
/** @param {Uint8Array} bytes @param {number} at */
const afterLine = (bytes, at) => {
  const end = bytes.indexOf(LINE_END, at);
  return end < 0 ? bytes.length : end + 1;
};

// Where the text after a field and its comma begins. A field may be in quotes.
/** @param {Uint8Array} bytes @param {number} from */
export function afterField(bytes, from) {
  if (bytes[from] === QUOTE) {
    let end = from + 1;
    while (bytes[end] !== QUOTE || bytes[end + 1] === QUOTE) end += bytes[end] === QUOTE ? 2 : 1;
    return end + 2;
  }
  let end = from;
  while (bytes[end] !== COMMA) end++;
  return end + 1;
}

// The heads of rows, each once: a row has the bytes of one that was there before, as nearly all have.
class Heads {
  /** @param {Uint8Array} bytes @param {Making} made */
  constructor(bytes, made) {
    this.bytes = bytes;
    this.made = made;
    /** @type {Map<number, Head[]>} */
    this.byHash = new Map();
  }

  /** @param {number} from @param {number} to @param {number} hash */
  at(from, to, hash) {
    let heads = this.byHash.get(hash);
    if (!heads) this.byHash.set(hash, heads = []);
    for (const head of heads) if (this.isSame(head, from, to)) return head;
    const [queue, agent, call, answer] = fieldsOf(textOf(this.bytes, from, to - 1));
    const head = { ...this.made(queue, agent, call, answer), from, length: to - from };
    heads.push(head);
    return head;
  }

  /** @param {Head} head @param {number} from @param {number} to */
  isSame(head, from, to) {
    if (head.length !== to - from) return false;
    for (let i = 0; i < head.length; i++) if (this.bytes[head.from + i] !== this.bytes[from + i]) return false;
    return true;
  }

  get all() {
    return [...this.byHash.values()].flat();
  }
}

// Reads the rows of a log and gives each to the function of its head. `made` makes a head of four texts, whose `take`
// is called with a row. `times` of a head, if it has a list of them, are those of its rows. Gives where each row
// begins, where the log ends, the heads, and the last time.
/** @param {Uint8Array} bytes @param {Making} made */
export function readRows(bytes, made) {
  const heads = new Heads(bytes, made), starts = new Numbers(Uint32Array);
  let at = afterLine(bytes, 0), time = 0;
  // the last number that was read, and where the text after it begins
  let number = 0, next = 0;
  const readNumber = (/** @type {number} */ from) => {
    number = 0;
    for (next = from; isDigit(bytes[next]); next++) number = number * 10 + bytes[next] - ZERO;
    return next > from && (next === from + 1 || bytes[from] !== ZERO);
  };
  // the number of a message `m-Q-N`; its queue is that of the row
  const messageAt = (/** @type {number} */ from) => readNumber(from + 2) && readNumber(next + 1) ? number : -1;
  while (at < bytes.length && isDigit(bytes[at])) {
    starts.push(at);
    time = 0;
    while (bytes[at] !== COMMA) time = time * 10 + bytes[at++] - ZERO;
    const from = ++at;
    let hash = 0;
    for (let commas = 0; commas < 4; at++) {
      const byte = bytes[at];
      hash = Math.imul(hash, 31) + byte | 0;
      if (byte === COMMA) commas++;
    }
    const head = heads.at(from, at, hash), message = bytes[at] === COMMA ? -1 : messageAt(at);
    const detail = afterField(bytes, message < 0 ? at + 1 : next + 1);
    at = detail;
    while (bytes[at] !== LINE_END) at++;
    head.times?.push(time);
    head.take(time, head, message, detail, at);
    at++;
  }
  return { starts: starts.whole, end: at, heads: heads.all, last: starts.length ? time : null };
}

// Where the last line before a place begins that begins with some words.
/** @param {Uint8Array} bytes @param {string} words @param {number} before */
export function lastLine(bytes, words, before) {
  const sign = new TextEncoder().encode(`\n${words}`);
  let at = bytes.lastIndexOf(LINE_END, before - 1);
  while (at >= 0 && !sign.every((byte, i) => bytes[at + i] === byte)) at = bytes.lastIndexOf(LINE_END, at - 1);
  return at + 1;
}

// The records between two places whose first field is a word, as `report`, their header first; each is its fields.
/** @param {Uint8Array} bytes @param {number} from @param {number} to @param {string} word */
export function recordsOf(bytes, from, to, word) {
  const records = [], sign = new TextEncoder().encode(`${word},`);
  for (let at = from; at < to; at = afterLine(bytes, at)) {
    if (sign.every((byte, i) => bytes[at + i] === byte)) {
      records.push(fieldsOf(textOf(bytes, at, afterLine(bytes, at) - 1)));
    }
  }
  return records;
}
