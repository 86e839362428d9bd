// @ts-check
// The numbers of a run at moments that lie evenly in a time: how many messages are in each place of each queue, and how
// many rows of each kind each agent has had by then.

import { DELAYED, IN_FLIGHT, VISIBLE } from './queue.js';

/** @typedef {{ from: number, to: number, count: number }} MomentQuestion */
/**
 * Of each queue the messages that are visible, in flight and delayed; of each agent at a queue, with a call and an
 * answer, the rows so far. Each is a list with a number for each moment.
 * @typedef {{ queues: { name: string, places: Uint32Array[] }[],
 *   rows: { queue: string, agent: string, row: string, counts: Uint32Array }[] }} Moments
 */

/** The rows whose numbers are told. */
export const TOLD_ROWS = ['send,new', 'receive,ok', 'delete,deleted', 'fail,ok', 'forward,out', 'redrive,out',
  'move,out', 'scale,ok'];

/** @param {MomentQuestion} question @param {number} i */
const momentOf = ({ from, to, count }, i) => from + (to - from) * i / (count - 1);

/** How many of some times, which ascend, are not after each moment.
 * @param {ArrayLike<number>} times @param {MomentQuestion} question */
export function countsAt(times, question) {
  const counts = new Uint32Array(question.count);
  for (let i = 0, at = 0; i < question.count; i++) {
    const moment = momentOf(question, i);
    while (at < times.length && times[at] <= moment) at++;
    counts[i] = at;
  }
  return counts;
}

/** How many messages are in each place of a queue at each moment, by its changes.
 * @param {ArrayLike<number>} times @param {ArrayLike<number>} changes @param {MomentQuestion} question */
export function placesAt(times, changes, question) {
  const places = [VISIBLE, IN_FLIGHT, DELAYED].map(() => new Uint32Array(question.count)), now = [0, 0, 0, 0];
  for (let i = 0, at = 0; i < question.count; i++) {
    const moment = momentOf(question, i);
    for (; at < times.length && times[at] <= moment; at++) {
      now[changes[at] >> 2]--;
      now[changes[at] & 3]++;
    }
    places.forEach((place, which) => { place[i] = now[which]; });
  }
  return places;
}

/** All of it of a run.
 * @param {import('./run.js').Run} run @param {MomentQuestion} question @returns {Moments} */
export function momentsOf(run, question) {
  return {
    queues: run.queues.map(({ name, times, changes }) => ({ name,
      places: placesAt(times.whole, changes.whole, question) })),
    rows: run.heads.flatMap(({ queue, agent, kind, times }) => times ? [{ queue: queue.name, agent, row: kind,
      counts: countsAt(times.whole, question) }] : []) };
}
