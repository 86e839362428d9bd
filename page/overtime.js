// @ts-check
// What of a run is drawn over time: numbers in columns of equal width, from a moment to another.

import { DELAYED, IN_FLIGHT, VISIBLE } from './queue.js';
import { nearestRank } from './units.js';

/** @typedef {import('./queue.js').Queue} Queue */
/** @typedef {{ times: { whole: ArrayLike<number> }, changes: { whole: ArrayLike<number> } }} Changes */
/** @typedef {{ means: Float32Array, least: Float32Array, greatest: Float32Array }} Drawn */
/** @typedef {{ from: number, to: number, columns: number, bins: number }} Over */
/**
 * @typedef {{ name: string, places: Drawn[], oldest: Drawn, ages: Float32Array[], redrives: Uint32Array,
 *   expiries: Uint32Array }} QueueOverTime
 */

// The mean, the least and the greatest number in each column of time.
class Extents {
  /** @param {number} from @param {number} to @param {number} columns */
  constructor(from, to, columns) {
    this.from = from;
    this.to = to;
    this.columns = columns;
    this.width = (to - from) / columns;
    this.areas = new Float64Array(columns);
    this.known = new Float64Array(columns);
    this.least = new Float32Array(columns).fill(NaN);
    this.greatest = new Float32Array(columns).fill(NaN);
  }

  // Adds a number that goes evenly from `first` to `last` between two moments.
  /** @param {number} begin @param {number} end @param {number} first @param {number} last */
  add(begin, end, first, last) {
    const low = Math.max(begin, this.from), high = Math.min(end, this.to);
    if (high <= low) return;
    const slope = (last - first) / (end - begin);
    let column = Math.min(this.columns - 1, Math.floor((low - this.from) / this.width));
    for (let at = low; at < high && column < this.columns; column++) {
      const until = column === this.columns - 1 ? high : Math.min(high, this.from + (column + 1) * this.width);
      if (until > at) this.addIn(column, until - at, first + (at - begin) * slope, first + (until - begin) * slope);
      at = Math.max(at, until);
    }
  }

  /** @param {number} column @param {number} time @param {number} first @param {number} last */
  addIn(column, time, first, last) {
    this.areas[column] += time * (first + last) / 2;
    this.known[column] += time;
    const low = Math.min(first, last), high = Math.max(first, last);
    if (!(this.least[column] <= low)) this.least[column] = low;
    if (!(this.greatest[column] >= high)) this.greatest[column] = high;
  }

  /** @returns {Drawn} */
  get drawn() {
    const means = new Float32Array(this.columns);
    for (let i = 0; i < this.columns; i++) means[i] = this.known[i] ? this.areas[i] / this.known[i] : NaN;
    return { means, least: this.least, greatest: this.greatest };
  }
}

// How many messages of a queue are in each place. What changes back within a millisecond is left out.
/** @param {Changes} queue @param {number} from @param {number} to @param {number} columns */
export function placesOverTime(queue, from, to, columns) {
  const extents = [VISIBLE, IN_FLIGHT, DELAYED].map(() => new Extents(from, to, columns));
  const times = queue.times.whole, changes = queue.changes.whole;
  // the numbers by now, and those that are not added yet with their times
  const now = [0, 0, 0, 0], held = [0, 0, 0], since = [from, from, from];
  const note = (/** @type {number} */ until, /** @type {boolean} */ isEnd) => {
    for (let place = 0; place < 3; place++) {
      if (!isEnd && now[place] === held[place]) continue;
      extents[place].add(since[place], until, held[place], held[place]);
      [held[place], since[place]] = [now[place], Math.max(from, until)];
    }
  };
  let last = from;
  for (let i = 0; i < times.length && times[i] < to; i++) {
    if (times[i] > last) {
      note(last, false);
      last = times[i];
    }
    now[changes[i] >> 2]--;
    now[changes[i] & 3]++;
  }
  note(last, false);
  note(to, true);
  return extents.map(extent => extent.drawn);
}

// The age of the oldest message; none while the queue is empty.
/** @param {Queue} queue @param {number} from @param {number} to @param {number} columns */
function oldestOverTime(queue, from, to, columns) {
  const extent = new Extents(from, to, columns), at = queue.oldestAt.whole, sinces = queue.sinces.whole;
  for (let i = 0; i < at.length; i++) {
    const end = i + 1 < at.length ? at[i + 1] : Math.max(to, at[i]);
    if (sinces[i] >= 0 && end > at[i]) extent.add(at[i], end, at[i] - sinces[i], end - sinces[i]);
  }
  return extent.drawn;
}

/** @param {number} time @param {number} from @param {number} to @param {number} bins */
const binOf = (time, from, to, bins) =>
  time < from || time > to ? -1 : Math.min(bins - 1, Math.floor((time - from) / (to - from) * bins));

// The middle, 95 % and greatest age of messages by when they were deleted; none in a bin without any.
/** @param {Queue} queue @param {number} from @param {number} to @param {number} bins */
function agesOverTime(queue, from, to, bins) {
  const found = [50, 95, 100].map(() => new Float32Array(bins).fill(NaN));
  const times = queue.deletedAt.whole, ages = queue.ages.whole;
  for (let first = 0; first < times.length;) {
    const bin = binOf(times[first], from, to, bins);
    let last = first + 1;
    while (last < times.length && binOf(times[last], from, to, bins) === bin) last++;
    if (bin >= 0) {
      const here = ages.slice(first, last).sort();
      [50, 95, 100].forEach((percent, i) => { found[i][bin] = nearestRank(here, percent) ?? NaN; });
    }
    first = last;
  }
  return found;
}

/** @param {Iterable<number>} times @param {number} from @param {number} to @param {number} bins */
export function countsOverTime(times, from, to, bins) {
  const counts = new Uint32Array(bins);
  for (const time of times) {
    const bin = binOf(time, from, to, bins);
    if (bin >= 0) counts[bin]++;
  }
  return counts;
}

// All of it for some queues of a run. `columns` are as wide as a pixel, and `bins` are wider.
/** @param {import('./run.js').Run} run @param {string[]} names @param {Over} over @returns {QueueOverTime[]} */
export function overTime(run, names, { from, to, columns, bins }) {
  const most = Math.max(1, Math.min(columns, to - from)), wide = Math.max(1, Math.min(bins, to - from));
  return names.flatMap(name => run.byName.get(name) ?? []).map(queue => ({
    name: queue.name, places: placesOverTime(queue, from, to, most), oldest: oldestOverTime(queue, from, to, most),
    ages: agesOverTime(queue, from, to, wide), redrives: countsOverTime(queue.redrivenAt.whole, from, to, wide),
    expiries: countsOverTime(queue.expiredAt.whole, from, to, wide) }));
}
