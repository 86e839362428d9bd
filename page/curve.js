// @ts-check
// The curve of a slider: what comes out with ten of its values, each with some seeds. It draws the number of the answer
// that is chosen for the requirement.

import { rolesOf, tilesOf } from './answer.js';
import { Asker } from './asker.js';
import { byId, count, drawn, selectById, setText, tableOf } from './dom.js';
import { withSeedBehind, withValue } from './edits.js';
import { LEFT, RIGHT } from './figure.js';
import { written } from './numbers.js';
import { AGE_TILE, BUSY_TILE } from './require.js';
import { Scenario } from './scenario.js';
import { rangeOf } from './seeds.js';
import { FORESEEN_MOST, rowsAbout } from './side.js';
import { several, ticksOf } from './units.js';

/** @typedef {import('./numbers.js').Slider} Slider */
/** @typedef {{ value: number, range: [number, number, number] | null }} Ranged */

// So many seeds are run of each value: as many as have about so many rows in all, which takes some seconds, and at most
// so many.
const CURVE_ROWS = 500000, CURVE_SEEDS = 20;
const CURVE_HEIGHT = 170, CURVE_TOP = 14, CURVE_BOTTOM = 24;

export class Curve {
  // `chosen` is called with a slider and a value as a point of the curve is clicked; `require` is the requirement.
  /** @param {import('./require.js').Requirement} require @param {(slider: Slider, value: number) => void} chosen */
  constructor(require, chosen) {
    this.require = require;
    this.chosen = chosen;
    this.box = byId('curve');
    this.picture = byId('curve-picture');
    /** @type {{ value: number, text: string, tiles: import('./answer.js').Tile[][] }[]} */
    this.points = [];
    this.turn = this.seeds = this.done = 0;
    /** @type {Slider | null} */
    this.slider = null;
    this.asker = new Asker(() => this.close());
    byId('curve-close').onclick = () => this.close();
    new ResizeObserver(() => this.draw()).observe(this.box);
  }

  close() {
    this.turn++;
    this.asker.end();
    this.box.hidden = true;
    this.points = [];
  }

  // Runs ten values of a slider, first each with one seed and then with more, as long as it is not closed.
  /** @param {Slider} slider @param {import('./side.js').Side} side */
  async begin(slider, side) {
    const turn = ++this.turn, { text, files } = side;
    const rows = Math.max(1, side.outcome.starts.length);
    const seeds = Math.max(1, Math.min(CURVE_SEEDS, Math.floor(CURVE_ROWS / 10 / rows)));
    this.points = slider.tenValues().map(value => ({ value, text: withValue(text, slider.places, value), tiles: [] }));
    this.points = this.points.filter(point => rowsAbout(point.text, files) <= FORESEEN_MOST);
    this.slider = slider;
    this.seeds = seeds;
    this.done = 0;
    this.box.hidden = false;
    this.draw();
    this.box.scrollIntoView({ block: 'nearest' });
    for (let behind = 0; behind < seeds; behind++) {
      for (const point of this.points) {
        const over = { names: /** @type {string[]} */ ([]), from: 0, to: 1, columns: 1, bins: 1 };
        const answer = await this.asker.ask({ text: withSeedBehind(point.text, behind), files, over });
        if (turn !== this.turn) return;
        if (answer.code === 0) point.tiles.push(tilesOf({ ...answer, ...rolesOf(new Scenario(point.text)) }));
      }
      this.done = behind + 1;
      this.draw();
    }
    count('curve');
  }

  // Each value with the least, the middle and the greatest of the number that is drawn.
  /** @returns {Ranged[]} */
  get ranges() {
    return this.points.map(({ value, tiles }) => ({ value,
      range: rangeOf(tiles.map(all => all[this.require.tile].number)) }));
  }

  draw() {
    if (this.box.hidden || !this.points.length || !this.slider) return;
    const { key, of, title } = this.slider, ranges = this.ranges, tile = this.points.find(({ tiles }) => tiles.length);
    const label = selectById('measure').selectedOptions[0]?.textContent ?? '';
    setText(byId('curve-title'), `${label} by ${key.name} of ${of || title}`);
    const isDone = this.done >= this.seeds;
    setText(byId('curve-note'), `${isDone ? '' : `${this.done} of `}${several(this.seeds, 'seed')} each: `
      + 'the line is their middle. A click on a point takes its value.');
    const { written: inWords } = tile?.tiles[0][this.require.tile] ?? { written: String };
    const write = (/** @type {number | null} */ number) => number === null ? 'none' : inWords(number);
    this.picture.replaceChildren(this.drawn(this.slider, ranges, write));
    byId('curve-table').replaceChildren(tableOf(byId('curve-title').textContent ?? '',
      [key.name, 'least', 'middle', 'greatest'], ranges.map(({ value, range }) => ({ cells: [written(key.name, value),
        ...[0, 1, 2].map(i => write(range ? range[i] : null))] }))));
  }

  /** @param {Slider} slider @param {Ranged[]} ranges @param {(number: number | null) => string} write */
  drawn(slider, ranges, write) {
    const width = Math.max(260, this.box.clientWidth - 2), { most: required } = this.require;
    const { key, value: now } = slider, isRed = (/** @type {Ranged['range']} */ range) =>
      required !== null && range !== null && range[1] > required;
    const isTime = this.require.tile === AGE_TILE;
    const most = Math.max(1, required ?? 0, ...ranges.map(({ range }) => range?.[2] ?? 0));
    const x = (/** @type {number} */ i) => LEFT + 12 + (width - LEFT - RIGHT - 24) * i / Math.max(1, ranges.length - 1);
    const bottom = CURVE_HEIGHT - CURVE_BOTTOM;
    const y = (/** @type {number} */ number) => bottom - (bottom - CURVE_TOP) * number / most;
    const { ticks, unit } = ticksOf(0, most, 4, isTime);
    /** @type {SVGElement[]} */
    const parts = [];
    const told = this.require.tile === BUSY_TILE ? ({ at = 0 }) => write(at)
      : ({ at = 0, text = '' }) => unit && at ? `${text} ${unit}` : text;
    for (const tick of ticks) {
      const height = y(tick.at);
      parts.push(drawn('line', { class: 'grid', x1: LEFT, x2: width - RIGHT, y1: height, y2: height }),
        drawn('text', { x: LEFT - 5, y: height + 4, 'text-anchor': 'end' }, told(tick)));
    }
    ranges.forEach(({ value }, i) => parts.push(drawn('text', { x: x(i), y: CURVE_HEIGHT - 6, 'text-anchor': 'middle',
      class: value === now ? 'caption' : '' }, width > 560 || i % 2 === 0 ? written(key.name, value) : '')));
    const points = ranges.flatMap(({ value, range }, i) => range ? [{ i, value, range }] : []);
    const line = (/** @type {0 | 1 | 2} */ which) =>
      points.map(({ i, range }) => `${x(i).toFixed(1)},${y(range[which]).toFixed(1)}`);
    if (points.length) {
      parts.push(drawn('path', { class: 'band age', d: `M${[...line(2), ...line(0).reverse()].join('L')}Z` }),
        drawn('path', { class: 'line age', d: `M${line(1).join('L')}` }));
    }
    if (required !== null) {
      const nowIs = ranges.find(({ value }) => value === now)?.range ?? null;
      parts.push(drawn('line', { class: `required ${isRed(nowIs) ? 'broken' : ''}`, x1: LEFT, x2: width - RIGHT,
        y1: y(required), y2: y(required) }));
    }
    for (const { i, value, range } of points) {
      const title = drawn('title', {}, `${written(key.name, value)}: ${range.map(write).join(', ')}`);
      const point = drawn('circle', { class: `point ${isRed(range) ? 'broken' : ''}`, cx: x(i), cy: y(range[1]),
        r: value === now ? 7 : 4.5 }, title);
      point.addEventListener('click', () => this.chosen(slider, value));
      parts.push(point);
    }
    return drawn('svg', { width, height: CURVE_HEIGHT, viewBox: `0 0 ${width} ${CURVE_HEIGHT}`, role: 'img',
      'aria-label': `${byId('curve-title').textContent}, as in the table below` }, ...parts);
  }
}
