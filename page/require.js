// @ts-check
// A requirement: that a number of the answer is at most so much. The tiles judge it, and it is a line in the pictures.

import { byId, element, inputById, selectById, setText } from './dom.js';
import { meant } from './numbers.js';
import { duration, grouped } from './units.js';

/** @typedef {import('./answer.js').Tile} Tile */

// What each tile is, by its place: how its number is written and read, and the panel in which it is a line.
export const AGE_TILE = 1, BACKLOG_TILE = 3, BUSY_TILE = 4;
/** @param {number} tile */
const TILE_KEY = tile => tile === AGE_TILE ? 'age_ms' : tile === BUSY_TILE ? 'busy_permille' : 'count';

export class Requirement {
  // `changed` is called as another one is required.
  /** @param {() => void} changed */
  constructor(changed) {
    this.measure = selectById('measure');
    this.field = inputById('most');
    this.verdict = byId('verdict');
    this.measure.onchange = () => this.take(changed);
    this.field.oninput = () => this.take(changed);
    /** @type {number | null} */
    this.most = null;
  }

  // The number of the tile that is required, or drawn as a curve.
  get tile() {
    return Number(this.measure.value);
  }

  /** @param {() => void} changed */
  take(changed) {
    const text = this.field.value.trim(), most = meant(TILE_KEY(this.tile), text);
    this.field.setAttribute('aria-invalid', String(text !== '' && !Number.isInteger(most)));
    this.most = text === '' || !Number.isInteger(most) ? null : most;
    changed();
  }

  // Whether a tile is past what is required of it.
  /** @param {number} tile @param {number | null} number */
  isBroken(tile, number) {
    return this.most !== null && tile === this.tile && number !== null && number > (this.most ?? 0);
  }

  // The names of the tiles to choose from.
  /** @param {Tile[]} tiles */
  name(tiles) {
    if (this.measure.options.length) return;
    this.measure.append(...tiles.map(({ label }, i) => element('option', { value: i, textContent: label,
      selected: i === AGE_TILE })));
  }

  // Says whether it holds, and in how many seeds.
  /** @param {Tile[]} tiles @param {import('./seeds.js').Spread | null} spread */
  tell(tiles, spread) {
    const { number, written } = tiles[this.tile], seeds = spread && this.most !== null
      ? `; it holds in ${spread.countUpTo(this.tile, this.most)} of ${spread.count} seeds` : '';
    const isBroken = this.isBroken(this.tile, number);
    this.verdict.className = isBroken ? 'broken' : '';
    setText(this.verdict, this.most === null ? ''
      : `${isBroken ? 'Exceeded' : 'Holds'} with ${number === null ? 'none' : written(number)}${seeds}.`);
  }

  // The panel of the pictures in which it is a line; undefined if there is none.
  /** @returns {string | undefined} */
  get panel() {
    return this.most === null ? undefined : { [AGE_TILE]: 'ages', [BACKLOG_TILE]: 'places' }[this.tile];
  }

  // The line of it in the picture of a queue with these numbers; null if it is none.
  /** @param {string} kind @param {import('./run.js').Values | undefined} values */
  lineIn(kind, values) {
    const of = kind === 'ages' ? AGE_TILE : kind === 'places' ? BACKLOG_TILE : null;
    if (this.most === null || of !== this.tile) return null;
    const number = (kind === 'ages' ? values?.age_p95_ms : values?.depth_greatest) ?? null;
    const isBroken = this.isBroken(of, number);
    const most = kind === 'ages' ? `95 % at most ${duration(this.most)}` : `at most ${grouped(this.most)} in all`;
    return { most: this.most, isBroken, text: `${most}${isBroken ? ': exceeded' : ''}` };
  }
}
