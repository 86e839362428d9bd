// @ts-check
// What the rows of one queue say: what changes when.

import { Numbers } from './log.js';

export const VISIBLE = 0, IN_FLIGHT = 1, DELAYED = 2, NOWHERE = 3;
// A change is four times the place that a message leaves and the place that it comes to.
export const ENTERED = 4 * NOWHERE + VISIBLE, ENTERED_DELAYED = 4 * NOWHERE + DELAYED;
const GONE = -1 - NOWHERE;

export class Queue {
  /** @param {string} name @param {number} number */
  constructor(name, number) {
    this.name = name;
    this.number = number;
    // by the number of a message: when it came, and its place as -1 - place or the index of its coming in `changes` if it
    // has not moved since
    this.came = new Numbers(Uint32Array);
    this.stands = new Numbers(Int32Array);
    this.times = new Numbers(Uint32Array);
    this.changes = new Numbers(Uint8Array);
    this.deletedAt = new Numbers(Uint32Array);
    this.ages = new Numbers(Uint32Array);
    this.redrivenAt = new Numbers(Uint32Array);
    this.expiredAt = new Numbers(Uint32Array);
    // when the oldest message became another, and when that one had come; -1 if there is none
    this.oldestAt = new Numbers(Uint32Array);
    this.sinces = new Numbers(Float64Array);
    this.oldest = 0;
    this.onTheirWay = 0;
    // the most copies that one of its scalers let ask
    /** @type {number | null} */
    this.copiesMost = null;
    /** @type {Set<string>} */
    this.deadLetteredTo = new Set();
    /** @type {Set<string>} */
    this.movedTo = new Set();
  }

  /** @param {number} time @param {number} change */
  changed(time, change) {
    this.times.push(time);
    this.changes.push(change);
  }

  /** @param {number} time @param {number} message @param {number} place */
  put(time, message, place) {
    const stands = this.stands.items[message];
    this.changed(time, stands >= 0 ? place : 4 * (-1 - stands) + place);
    this.stands.items[message] = -1 - place;
  }

  /** @param {number} time @param {number} message */
  enters(time, message) {
    if (this.oldest === this.stands.length) {
      this.oldestAt.push(time);
      this.sinces.push(time);
    }
    if (message !== this.stands.length) throw new Error(`message ${message} of ${this.name} cannot come in`);
    this.stands.push(this.times.length);
    this.came.push(time);
    this.changed(time, ENTERED);
  }

  /** @param {number} time @param {number} message */
  leaves(time, message) {
    this.put(time, message, NOWHERE);
    if (message !== this.oldest) return;
    const stands = this.stands.items;
    let next = message;
    while (next < this.stands.length && stands[next] === GONE) next++;
    this.oldest = next;
    this.oldestAt.push(time);
    this.sinces.push(next < this.stands.length ? this.came.items[next] : -1);
  }

  /** @param {number} time @param {number} message */
  releases(time, message) {
    this.wasDelayed(message);
    this.put(time, message, VISIBLE);
  }

  // A scaler changes how many copies ask.
  /** @param {number} from @param {number} to */
  scales(from, to) {
    this.copiesMost = Math.max(from, to, this.copiesMost ?? 0);
  }

  // Takes in, if a message has not moved since it came, that it has been delayed since.
  /** @param {number} message */
  wasDelayed(message) {
    const stands = this.stands.items[message];
    if (stands < 0) return;
    this.changes.items[stands] = ENTERED_DELAYED;
    this.stands.items[message] = -1 - DELAYED;
  }

  // How many messages are in each place at the end.
  get places() {
    const places = [0, 0, 0, 0];
    for (const stands of this.stands.whole) places[stands >= 0 ? VISIBLE : -1 - stands]++;
    return places;
  }

  /** @param {number} time @param {number} message @param {number} age */
  deletes(time, message, age) {
    this.ages.push(age);
    this.deletedAt.push(time);
    this.leaves(time, message);
  }
}
