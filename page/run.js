// @ts-check
// A run as its queues: their numbers, most of which are figures, and what its rows tell over time.

import { BACKLOG } from './facts.js';
import { figuresIn } from './figures.js';
import { Numbers, ZERO, lastLine, readRows, recordsOf } from './log.js';
import { TOLD_ROWS } from './moments.js';
import { IN_FLIGHT, Queue } from './queue.js';
import { fixed, textOf } from './units.js';

const SLASH = '/'.charCodeAt(0);

/** @typedef {import('./log.js').Head} Head */
/** @typedef {import('./figures.js').QueueFigures} QueueFigures */
/** @typedef {ReturnType<Run['valuesOf']>} Values The numbers of a queue, by the keys of `tools/summary --json`. */

export class Run {
  /** @param {Uint8Array} bytes */
  constructor(bytes) {
    /** @type {Uint8Array} */
    this.bytes = bytes;
    // the rows, then finals and transfers, then the report, and then the figures
    const figuresAt = lastLine(bytes, 'figure,of,', bytes.length), reportAt = lastLine(bytes, 'report,queue,', figuresAt);
    this.figures = figuresIn(bytes, figuresAt);
    const report = recordsOf(bytes, reportAt, figuresAt, 'report');
    this.columns = report[0];
    this.queues = report.slice(1).map((record, number) => new Queue(record[1], number));
    this.report = report.slice(1);
    this.byName = new Map(this.queues.map(queue => [queue.name, queue]));
    const { starts, end, heads, last } = readRows(bytes, (...texts) => this.headOf(...texts));
    this.starts = starts;
    this.end = end;
    this.heads = heads;
    this.last = last;
    for (const [, queue, message, , place] of recordsOf(bytes, end, reportAt, 'final').slice(1)) {
      if (place === 'delayed') this.queueOf(queue).wasDelayed(Number(message.split('-')[2]));
    }
    for (const [, , to] of recordsOf(bytes, end, reportAt, 'transfer').slice(1)) this.queueOf(to).onTheirWay++;
    this.moved = Math.max(0, ...this.queues.map(({ times }) => times.length ? times.items[times.length - 1] : 0));
  }

  // The queue of a name that the report has.
  /** @param {string} name */
  queueOf(name) {
    return /** @type {Queue} */ (this.byName.get(name));
  }

  // How busy each agent was that is no queue.
  /** @returns {import('./figures.js').Busy[]} */
  get busy() {
    return [...this.figures].filter(([name]) => !this.byName.has(name))
      .map(([name, { busy_permille: permille }]) => ({ name, permille: permille ?? 0 }));
  }

  /** @param {string} name @param {string} agent @param {string} call @param {string} answer
   * @returns {import('./log.js').Made} */
  headOf(name, agent, call, answer) {
    const queue = this.queueOf(name), kind = `${call},${answer}`;
    return { queue, number: queue.number, agent, kind, take: (TAKERS[kind] ?? (() => {})).bind(this),
      times: TOLD_ROWS.includes(kind) ? new Numbers(Uint32Array) : null };
  }

  /** @param {number} from @param {number} to */
  numberAt(from, to) {
    let number = 0;
    for (let at = from; at < to; at++) number = number * 10 + this.bytes[at] - ZERO;
    return number;
  }

  // Adds the queue to which a row says that a message goes to some names: for most rows that of the last row with its
  // head, which is there.
  /** @param {Head} head @param {number} from @param {number} to @param {Set<string>} names */
  goesTo(head, from, to, names) {
    const last = head.went, length = last?.length === to - from ? to - from : 0;
    let isSame = length > 0;
    for (let i = 0; last && isSame && i < length; i++) isSame = this.bytes[last.from + i] === this.bytes[from + i];
    if (isSame) return;
    head.went = { from, length: to - from };
    names.add(textOf(this.bytes, from, to));
  }

  // The numbers of a queue by the keys of `tools/summary --json`. Only where messages went, and how many copies asked, is
  // counted of rows.
  /** @param {Queue} queue */
  valuesOf(queue) {
    const figures = /** @type {QueueFigures} */ (this.figures.get(queue.name)), record = this.report[queue.number];
    const reported = (/** @type {string} */ column) => Number(record[this.columns.indexOf(column)]);
    const { handled_once: once, handled_again: again, received_messages: received } = figures;
    const isMoved = figures.moved_age_p50_ms !== null;
    return {
      ...figures, queue: queue.name, copies_greatest: queue.copiesMost,
      came_in: figures.sent + figures.came_by_forward + figures.came_by_redrive + figures.came_by_move,
      repeated_sends: figures.sent_again + figures.forwarded_again, handled_more_than_once: again,
      handled_yet_not_deleted: once + again - figures.deleted, times_handled_greatest: figures.handled_greatest || null,
      tries_mean: received ? Number(fixed(figures.receives / received, 3)) : null,
      tries_greatest: figures.received_greatest || null,
      left_visible: reported('visible'), left_delayed: reported('delayed'), on_their_way_here: queue.onTheirWay,
      // only beside those of moved messages
      new_age_p50_ms: isMoved ? figures.new_age_p50_ms : null, new_age_p95_ms: isMoved ? figures.new_age_p95_ms : null,
      depth_greatest_at_ms: figures.depth_greatest ? figures.depth_greatest_at_ms : null, backlog_over: BACKLOG,
      dead_lettered_to: [...queue.deadLetteredTo].sort(), moved_to: [...queue.movedTo].sort() };
  }

  // The numbers of all queues, whose rows end with as many messages as the figures say.
  values() {
    for (const queue of this.queues) {
      const { left, left_in_flight: flying } = /** @type {QueueFigures} */ (this.figures.get(queue.name));
      const [visible, inFlight, delayed] = queue.places;
      if (visible + inFlight + delayed !== left || inFlight !== flying) {
        throw new Error(`what is left of ${queue.name} differs between its rows and its figures`);
      }
    }
    return this.queues.map(queue => this.valuesOf(queue));
  }
}

// What is done with a row, by its call and answer. `this` is the run.
/** @type {Record<string, (this: Run, ...row: Parameters<import('./log.js').Taker>) => void>} */
const TAKERS = {
  'send,new'(time, head, message) { head.queue.enters(time, message); },
  'arrive,new'(time, head, message) { head.queue.enters(time, message); },
  'receive,ok'(time, head, message) { head.queue.put(time, message, IN_FLIGHT); },
  'delete,deleted'(time, head, message, from, to) { head.queue.deletes(time, message, this.numberAt(from, to)); },
  'release,visible'(time, head, message) { head.queue.releases(time, message); },
  'redrive,out'(time, head, message, from, to) {
    this.goesTo(head, from, to, head.queue.deadLetteredTo);
    head.queue.redrivenAt.push(time);
    head.queue.leaves(time, message);
  },
  'move,out'(time, head, message, from, to) {
    this.goesTo(head, from, to, head.queue.movedTo);
    head.queue.leaves(time, message);
  },
  'scale,ok'(time, head, message, from, to) {
    const slash = this.bytes.indexOf(SLASH, from);
    head.queue.scales(this.numberAt(from, slash), this.numberAt(slash + 1, to));
  },
  'expire,expired'(time, head, message) {
    head.queue.expiredAt.push(time);
    head.queue.leaves(time, message);
  },
};
