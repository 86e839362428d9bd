// @ts-check
// The same scenario with other seeds: what comes out of all of them, as the least, the middle and the greatest of each
// number, and as bands over time.

import { tilesOf } from './answer.js';
import { Asker } from './asker.js';
import { withSeedBehind } from './edits.js';
import { GREATEST, MIDDLE } from './figure.js';
import { nearestRank } from './units.js';

/** @typedef {import('./overtime.js').Over & { names: string[] }} Question */

// So many seeds are run, of a run that has at most this many rows, which takes about 100 ms.
const SEEDS = 20, QUICK_ROWS = 20000;

// The least, the middle and the greatest of some numbers; null if there is none.
/** @param {(number | null)[]} numbers @returns {[number, number, number] | null} */
export function rangeOf(numbers) {
  const known = numbers.flatMap(number => number ?? []).sort((a, b) => a - b);
  return known.length ? [known[0], nearestRank(known, 50) ?? 0, known[known.length - 1]] : null;
}

// Of columns over time the least and the greatest that came so far.
export class Extent {
  /** @param {number} from @param {number} to @param {number} count */
  constructor(from, to, count) {
    this.from = from;
    this.to = to;
    this.least = new Float32Array(count).fill(NaN);
    this.greatest = new Float32Array(count).fill(NaN);
  }

  /** @param {Float32Array} low @param {Float32Array} high */
  add(low, high) {
    for (let i = 0; i < low.length; i++) {
      if (!(this.least[i] <= low[i])) this.least[i] = low[i];
      if (!(this.greatest[i] >= high[i])) this.greatest[i] = high[i];
    }
  }
}

// What came out of some seeds of one variant.
export class Spread {
  /** @param {Question} question */
  constructor(question) {
    this.question = question;
    /** @type {(number | null)[][]} */
    this.tiles = [];
    /** @type {Map<string, { places: Extent[], ages: Extent }>} */
    this.queues = new Map();
  }

  get count() {
    return this.tiles.length;
  }

  // Takes the tiles of a run, and what it tells over time.
  /** @param {import('./answer.js').Tile[]} tiles @param {import('./overtime.js').QueueOverTime[]} queues */
  add(tiles, queues) {
    const { from, to } = this.question;
    this.tiles.push(tiles.map(({ number }) => number));
    for (const { name, places, ages } of queues) {
      if (!this.queues.has(name)) {
        this.queues.set(name, { places: places.map(({ means }) => new Extent(from, to, means.length)),
          ages: new Extent(from, to, ages[MIDDLE].length) });
      }
      const extents = /** @type {{ places: Extent[], ages: Extent }} */ (this.queues.get(name));
      places.forEach(({ means }, i) => extents.places[i].add(means, means));
      extents.ages.add(ages[MIDDLE], ages[GREATEST]);
    }
  }

  // The least, the middle and the greatest of a tile.
  /** @param {number} tile */
  rangeOf(tile) {
    return rangeOf(this.tiles.map(numbers => numbers[tile]));
  }

  // In how many seeds a tile is at most this.
  /** @param {number} tile @param {number} most */
  countUpTo(tile, most) {
    return this.tiles.filter(numbers => Number(numbers[tile] ?? 0) <= most).length;
  }
}

// Runs seeds in a worker of its own, one after the other, so that it stops soon.
export class Seeds {
  // `changed` is called as all seeds have run.
  /** @param {() => void} changed */
  constructor(changed) {
    this.changed = changed;
    this.asker = new Asker(() => this.stop());
    this.turn = 0;
  }

  stop() {
    this.turn++;
  }

  // Runs the seeds of some variants, if they are quick.
  /** @param {import('./side.js').Side[]} sides @param {Question} question */
  async begin(sides, question) {
    const turn = ++this.turn;
    /** @type {Spread[]} */
    const spreads = [];
    if (!sides.every(({ outcome }) => outcome.starts.length <= QUICK_ROWS)) return;
    for (const side of sides) {
      const spread = new Spread(question), { ran, files, outcome: { forDeadLetters, consumers } } = side;
      for (let behind = 0; behind < SEEDS; behind++) {
        const answer = await this.asker.ask({ text: withSeedBehind(ran ?? '', behind), files, over: question });
        if (turn !== this.turn || answer.code !== 0) return;
        spread.add(tilesOf({ ...answer, forDeadLetters, consumers }), answer.queues);
      }
      spreads.push(spread);
    }
    sides.forEach((side, i) => { side.spread = spreads[i]; });
    this.changed();
  }
}
