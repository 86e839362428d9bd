// @ts-check
// The rows of a log to scroll: a page of them at a time, from a moment on, and those alone that have a text in them.

import { buttonById, byId, inputById, saveAs, setText, tableOf } from './dom.js';
import { clock, grouped, momentOf, textOf } from './units.js';

/** @typedef {import('./side.js').Side} Side */

const ROWS_MOST = 500;

export class LogView {
  constructor() {
    /** @type {Side | null} */
    this.side = null;
    this.first = 0;
    /** @type {number[] | null} */
    this.found = null;
    byId('log-earlier').onclick = () => this.turnTo(this.first - ROWS_MOST);
    byId('log-later').onclick = () => this.turnTo(this.first + ROWS_MOST);
    byId('log-from').onchange = () => this.goTo(momentOf(inputById('log-from').value) ?? 0);
    byId('log-filter').onchange = () => this.filter();
    byId('log-save').onclick = () => this.save('log.csv', 0, this.outcome.end);
    byId('output-save').onclick = () => this.save('output.csv', 0, this.outcome.bytes.length);
  }

  // What came out of the variant that is shown.
  get outcome() {
    return /** @type {Side} */ (this.side).outcome;
  }

  /** @param {Side} side */
  show(side) {
    this.side = side;
    this.first = 0;
    this.filter();
  }

  /** @param {string} name @param {number} from @param {number} to */
  save(name, from, to) {
    saveAs(`${this.side?.name}-${name}`, [this.outcome.bytes.subarray(from, to)], 'text/csv');
  }

  // The number of rows that are to be seen, and where in the log the one with a number is.
  get count() {
    return this.found ? this.found.length : this.outcome.starts.length;
  }

  /** @param {number} number */
  rowAt(number) {
    return this.found ? this.found[number] : number;
  }

  /** @param {number} row */
  lineOf(row) {
    const { bytes, starts, end } = this.outcome;
    return textOf(bytes, starts[row], (row + 1 < starts.length ? starts[row + 1] : end) - 1);
  }

  /** @param {number} row */
  timeOf(row) {
    return Number.parseInt(this.lineOf(row), 10);
  }

  // The rows that have the text of the field in them; all without one.
  filter() {
    const sought = new TextEncoder().encode(inputById('log-filter').value.trim());
    const { bytes, starts, end } = this.outcome;
    this.found = null;
    if (sought.length) {
      /** @type {number[]} */
      const rows = [];
      for (let row = 0; row < starts.length; row++) {
        if (this.has(bytes, starts[row], row + 1 < starts.length ? starts[row + 1] : end, sought)) rows.push(row);
      }
      this.found = rows;
    }
    this.turnTo(0);
  }

  /** @param {Uint8Array} bytes @param {number} from @param {number} to @param {Uint8Array} sought */
  has(bytes, from, to, sought) {
    const last = to - sought.length;
    for (let at = from; at < last; at++) {
      let length = 0;
      while (length < sought.length && bytes[at + length] === sought[length]) length++;
      if (length === sought.length) return true;
    }
    return false;
  }

  // Turns to the first row that is not before a moment.
  /** @param {number} time */
  goTo(time) {
    let low = 0, high = this.count;
    while (low < high) {
      const middle = low + high >> 1;
      if (this.timeOf(this.rowAt(middle)) < time) low = middle + 1;
      else high = middle;
    }
    inputById('log-from').value = clock(time);
    this.turnTo(low);
  }

  /** @param {number} first */
  turnTo(first) {
    this.first = Math.max(0, Math.min(first, Math.max(0, this.count - 1)));
    const last = Math.min(this.count, this.first + ROWS_MOST);
    const rows = Array.from({ length: last - this.first }, (_, i) => this.lineOf(this.rowAt(this.first + i)));
    const titles = ['at', 'queue', 'agent', 'call', 'answer', 'message', 'receipt', 'detail'];
    byId('log').replaceChildren(tableOf('The log', titles, rows.map(line => ({ cells: this.cellsOf(line) })), false));
    byId('log').scrollTop = 0;
    buttonById('log-earlier').disabled = this.first === 0;
    buttonById('log-later').disabled = last >= this.count;
    setText(byId('log-note'), this.noteOf(last));
  }

  /** @param {number} last */
  noteOf(last) {
    const all = this.outcome.starts.length, of = this.found ? ` with this text (of ${grouped(all)})` : '';
    if (!this.count) return `No rows${of}.`;
    const shown = `Rows ${grouped(this.first + 1)} to ${grouped(last)} of ${grouped(this.count)}${of}`;
    return `${shown}${this.count > ROWS_MOST ? `; at most ${ROWS_MOST} are shown at once.` : '.'}`;
  }

  // The fields of a row, of which the receipt alone may be in quotes; the time by its clock.
  /** @param {string} line */
  cellsOf(line) {
    /** @type {string[]} */
    const cells = [];
    for (const [, quoted, plain] of line.matchAll(/(?:^|,)(?:"((?:[^"]|"")*)"|([^,]*))/g)) {
      cells.push(quoted === undefined ? plain : quoted.replaceAll('""', '"'));
    }
    return [clock(Number(cells[0])), ...cells.slice(1)];
  }
}
