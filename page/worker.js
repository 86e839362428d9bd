// @ts-check
// The worker: runs a scenario in an instance of the module of its own, and tells what came out. It is given messages
// { id, module }, { id, text, files }, { id, texts, files } for a comparison, { id, over } for what the last run tells
// over time, { id, moments } for its numbers at moments, and { id, text, files, over } for a run of which no row is
// wanted, over time. It answers each with { id, ... }. A text may be its bytes; the script files are a list of
// { name, bytes }. Version 3 of scenarios is read unless `version3` is false.

import { momentsOf } from './moments.js';
import { overTime } from './overtime.js';
import { Run } from './run.js';
import { DONE, SECOND_REFUSED, WHOLE_RUN, answered, lineOf, toldOf } from './simulator.js';

/** @typedef {import('./simulator.js').File} File */
/**
 * @typedef {{ module?: Uint8Array, text?: string, texts?: string[], files?: File[], version3?: boolean,
 *   over?: import('./overtime.js').Over & { names: string[] },
 *   moments?: import('./moments.js').MomentQuestion }} Question
 */
/**
 * What came out of a run that was not refused: the bytes and where rows begin, the numbers of its queues, how often each
 * changes, and how busy its other agents were.
 * @typedef {{ took: number, read: number, bytes: Uint8Array, starts: Uint32Array, end: number,
 *   values: import('./run.js').Values[], changes: number[], busy: import('./figures.js').Busy[], last: number | null,
 *   moved: number }} Result
 */
/**
 * @typedef {Result & { code: number, line: string, isSecond: boolean, error: string,
 *   moments: import('./moments.js').Moments, queues: import('./overtime.js').QueueOverTime[] }} Answer
 */

/** @type {WebAssembly.Module} */
let compiled;
/** @type {Run | null} */
let last = null;

/** @param {string} text @param {File[]} files @param {boolean} readsVersion3 */
async function run(text, files, readsVersion3) {
  last = null;
  const choice = { readsVersion3, figures: WHOLE_RUN };
  const { code, took, bytes } = await answered(compiled, 'rehearse', choice, [text], files);
  if (code !== DONE) return { code, took, line: lineOf(code, bytes) };
  const began = performance.now();
  last = new Run(bytes);
  const values = last.values(), { starts, end, busy, moved } = last;
  const changes = last.queues.map(queue => queue.times.length);
  last.bytes = new Uint8Array();
  return { code, took, read: performance.now() - began, bytes, starts, end, values, changes, busy, last: last.last, moved };
}

// The comparison of two scenarios; or the line of the one that is refused, and whether it is the second.
/** @param {string[]} texts @param {File[]} files @param {boolean} readsVersion3 */
async function compare(texts, files, readsVersion3) {
  const { code, bytes } = await answered(compiled, 'compare', { readsVersion3 }, texts, files);
  return code === DONE ? { code, bytes } : { code, line: lineOf(code, bytes), isSecond: code === SECOND_REFUSED };
}

/** @param {Question} question @returns {Promise<Partial<Answer>>} */
async function answerTo({ module, text, texts, files = [], over, moments, version3 = true }) {
  if (module) {
    compiled = await WebAssembly.compile(module);
    return {};
  }
  if (moments) return { moments: last ? momentsOf(last, moments) : { queues: [], rows: [] } };
  if (texts) return compare(texts, files, version3);
  if (text !== undefined && over) {
    const { code, values, busy } = await run(text, files, version3);
    return last ? { code, values, busy, queues: overTime(last, over.names, over) } : { code };
  }
  return over ? { queues: last ? overTime(last, over.names, over) : [] } : run(text ?? '', files, version3);
}

/** @param {Question & { id: number }} data */
async function answer(data) {
  try {
    const answer = { id: data.id, ...await answerTo(data) };
    // the bytes and the places of rows move to the page, which is quicker than a copy
    self.postMessage(answer, { transfer: [answer.bytes, answer.starts].flatMap(it => it?.buffer ?? []) });
  } catch (error) {
    self.postMessage({ id: data.id, error: toldOf(/** @type {Error} */ (error)) });
  }
}

// One message is answered after the other.
let turn = Promise.resolve();
self.onmessage = ({ data }) => { turn = turn.then(() => answer(data)); };
