// @ts-check
// The text of a scenario as what it has, with the place of each key and value.
//
// It reads TOML to find places, and judges nothing: the program does that. A node is { type, value, key, from, to }:
// where its key begins, and where its value begins and ends. `lost` is where the text stops to be TOML, else null.

/** @typedef {'text' | 'truth' | 'integer' | 'float' | 'list' | 'table' | 'date'} Kind */
/**
 * What a text has at a place. A table's value is a map of its keys, and a list's an array.
 * @typedef {{ type: Kind, value: any, key: number, from: number, to: number }} Item
 */
/** @typedef {{ type: Kind, value: unknown }} Value */

class Lost extends Error {}

const SPACE = /(?:[ \t\r\n]|#[^\n]*)*/y, LINE_SPACE = /[ \t]*(?:#[^\n]*)?(?:\r?\n|$)/y;
const BARE_KEY = /[A-Za-z0-9_-]+/y, BARE_VALUE = /[^\s,\]}#]+(?: [0-9][^\s,\]}#]*)?/y;
const SHORT_STRING = /"(?:[^"\\\n]|\\.)*"|'[^'\n]*'/y;
const INTEGER = /^[+-]?(?:0|[1-9](?:_?[0-9])*|0x[0-9a-fA-F_]+|0o[0-7_]+|0b[01_]+)$/;
const FLOAT = /^[+-]?(?:inf|nan|[0-9][0-9_]*(?:\.[0-9_]+)?(?:[eE][+-]?[0-9_]+)?)$/;
/** @type {Record<string, string>} */
const ESCAPES = { b: '\b', t: '\t', n: '\n', f: '\f', r: '\r', '"': '"', '\\': '\\' };
export const PLACE = /^(queue|actor|task)\[([0-9]+)\](?:\.([^]*))?$/;

/** @param {{ key?: number, from?: number, to?: number }} more @returns {Item} */
const tableNode = more => ({ type: 'table', value: new Map(), key: 0, from: 0, to: 0, ...more });

// What a text in quotes says.
/** @param {string} quoted */
function textIn(quoted) {
  const isLong = quoted.startsWith('"""') || quoted.startsWith("'''");
  const inner = isLong ? quoted.slice(3, -3).replace(/^\r?\n/, '') : quoted.slice(1, -1);
  if (quoted[0] === "'") return inner;
  return inner.replace(/\\(?:u([0-9A-Fa-f]{4})|U([0-9A-Fa-f]{8})|[ \t]*\r?\n\s*|(.))/g, (all, four, eight, one) => {
    if (four || eight) return String.fromCodePoint(Math.min(0x10ffff, parseInt(four ?? eight, 16)));
    return one === undefined ? '' : ESCAPES[one] ?? all;
  });
}

export class Scenario {
  /** @param {string} text */
  constructor(text) {
    this.text = text;
    /** @type {Item} */
    this.top = tableNode({ key: 0, from: 0, to: 0 });
    /** @type {number | null} */
    this.lost = null;
    this.at = 0;
    try {
      this.read();
    } catch (error) {
      if (!(error instanceof Lost || error instanceof RangeError)) throw error;
      this.lost = Math.min(this.at, text.length);
    }
  }

  // The text that a pattern finds here, which is passed; null if it finds none.
  /** @param {RegExp} pattern */
  takes(pattern) {
    pattern.lastIndex = this.at;
    const found = pattern.exec(this.text);
    if (!found) return null;
    this.at = pattern.lastIndex;
    return found[0];
  }

  /** @template T @param {T | null | false | undefined} found @returns {T} */
  needs(found) {
    if (found === null || found === false || found === undefined) throw new Lost();
    return found;
  }

  /** @param {string} wanted */
  character(wanted) {
    if (this.text[this.at] !== wanted) throw new Lost();
    this.at++;
  }

  read() {
    if (this.text.startsWith('\ufeff')) this.at = 1;
    let table = this.top;
    for (this.takes(SPACE); this.at < this.text.length; this.takes(SPACE)) {
      if (this.text[this.at] === '[') table = this.header();
      else this.pair(table);
      this.needs(this.takes(LINE_SPACE));
    }
  }

  // A header, `[table]` or `[[table]]`; gives the table that follows.
  /** @returns {Item} */
  header() {
    const key = this.at, isList = this.text.startsWith('[[', key);
    this.at += isList ? 2 : 1;
    const words = this.words(), last = words.pop();
    this.character(']');
    if (isList) this.character(']');
    const parent = words.reduce((table, word) => this.inner(table, word, key), this.top);
    const made = tableNode({ key, from: key, to: this.at });
    if (!isList) {
      const there = parent.value.get(last);
      if (there) return this.needs(there.type === 'table' && there);
      parent.value.set(last, made);
      return made;
    }
    if (!parent.value.has(last)) parent.value.set(last, { type: 'list', value: [], key, from: key, to: this.at });
    const list = parent.value.get(last);
    this.needs(list.type === 'list');
    list.value.push(made);
    return made;
  }

  // The table of a word in a table, which is made if it is not there.
  /** @param {Item} table @param {string} word @param {number} key @returns {Item} */
  inner(table, word, key) {
    if (!table.value.has(word)) table.value.set(word, tableNode({ key, from: key, to: key }));
    const node = table.value.get(word);
    const found = node.type === 'list' ? node.value.at(-1) : node;
    return this.needs(found && found.type === 'table' && found);
  }

  words() {
    const words = [];
    for (;;) {
      this.takes(SPACE);
      const isQuoted = '"\''.includes(this.text[this.at] ?? ' ');
      words.push(isQuoted ? textIn(this.needs(this.takes(SHORT_STRING))) : this.needs(this.takes(BARE_KEY)));
      this.takes(SPACE);
      if (this.text[this.at] !== '.') return words;
      this.at++;
    }
  }

  /** @param {Item} table */
  pair(table) {
    const key = this.at, words = this.words(), last = words.pop();
    this.character('=');
    this.takes(SPACE);
    const inside = words.reduce((outer, word) => this.inner(outer, word, key), table);
    if (inside.value.has(last)) {
      this.at = key;
      throw new Lost();
    }
    inside.value.set(last, { ...this.value(), key });
  }

  /** @returns {Item} */
  value() {
    const from = this.at, first = this.text[from];
    /** @type {Value} */
    const node = first === '"' || first === "'" ? this.string() : first === '[' ? this.list()
      : first === '{' ? this.inlineTable() : this.bare();
    return { ...node, key: from, from, to: this.at };
  }

  /** @returns {Value} */
  string() {
    for (const mark of ['"""', "'''"]) {
      if (!this.text.startsWith(mark, this.at)) continue;
      const end = (mark === '"""' ? /(?:[^\\"]|\\[^]|"{1,2}(?!"))*"{3,5}/y : /[^]*?'{3,5}/y);
      end.lastIndex = this.at + 3;
      const from = this.at;
      this.needs(end.exec(this.text));
      this.at = end.lastIndex;
      return { type: 'text', value: textIn(this.text.slice(from, this.at)) };
    }
    return { type: 'text', value: textIn(this.needs(this.takes(SHORT_STRING))) };
  }

  /** @returns {Value} */
  list() {
    const items = [];
    this.at++;
    for (this.takes(SPACE); this.text[this.at] !== ']'; this.takes(SPACE)) {
      items.push(this.value());
      this.takes(SPACE);
      if (this.text[this.at] === ',') this.at++;
      else if (this.text[this.at] !== ']') throw new Lost();
    }
    this.at++;
    return { type: 'list', value: items };
  }

  /** @returns {Value} */
  inlineTable() {
    const table = tableNode({});
    this.at++;
    for (this.takes(SPACE); this.text[this.at] !== '}'; this.takes(SPACE)) {
      this.pair(table);
      this.takes(SPACE);
      if (this.text[this.at] === ',') this.at++;
      else if (this.text[this.at] !== '}') throw new Lost();
    }
    this.at++;
    return table;
  }

  /** @returns {Value} */
  bare() {
    const from = this.at, text = this.needs(this.takes(BARE_VALUE));
    if (text === 'true' || text === 'false') return { type: 'truth', value: text === 'true' };
    if (INTEGER.test(text)) return { type: 'integer', value: BigInt(text.replace(/[_+]/g, '').replace(/^-/, ''))
      * (text[0] === '-' ? -1n : 1n) };
    if (FLOAT.test(text)) return { type: 'float', value: Number(text.replaceAll('_', '')) };
    if (/^[0-9]{2,4}[-:][0-9]/.test(text)) return { type: 'date', value: text };
    this.at = from;
    throw new Lost();
  }

  // The items of `queue`, `actor` or `task`; none if it is no list.
  /** @param {string} of @returns {Item[]} */
  items(of) {
    const list = this.top.value.get(of);
    return list && list.type === 'list' ? list.value : [];
  }

  // The line and the column of a position, both from 1; a byte order mark does not count.
  /** @param {number} at @returns {[number, number]} */
  lineAndColumn(at) {
    const start = this.text.lastIndexOf('\n', at - 1) + 1, mark = start === 0 && this.text[0] === '\ufeff' ? 1 : 0;
    return [this.text.slice(0, at).split('\n').length, at - start + 1 - mark];
  }
}

// What a node of a table says, or undefined.
/** @param {Item | undefined} table @param {string} key @returns {unknown} */
export const said = (table, key) => table && table.type === 'table' ? table.value.get(key)?.value : undefined;

/** The queues to which an actor forwards each message: one, or those of a list.
 * @param {Item} actor @returns {string[]} */
export function forwardsOf(actor) {
  const forward = said(actor, 'forward'), all = Array.isArray(forward) ? forward.map(it => it.value) : [forward];
  return all.filter(it => typeof it === 'string');
}

/** The names of an actor in the log: those of its copies, if it has some.
 * @param {Item} actor @param {string} name */
export function agentsOf(actor, name) {
  const copies = said(actor, 'copies');
  return typeof copies === 'bigint' && copies > 0n && copies <= 1000n
    ? Array.from({ length: Number(copies) }, (_, i) => `${name}-${i + 1}`) : [name];
}
