// @ts-check
// A variant of the scenario: its text and its script files, the worker that runs it, and what came out.

import { rolesOf } from './answer.js';
import { Asker } from './asker.js';
import { SHORT_LINES, SHORT_MOST, isShort } from './editor.js';
import { Scenario, said } from './scenario.js';
import { grouped } from './units.js';

/** @typedef {import('./scenario.js').Item} Item */
/** @typedef {import('./link.js').File} File */
/** @typedef {import('./worker.js').Answer & import('./answer.js').Roles} Outcome */

// A run of more rows does not begin by itself, as far as they can be foreseen.
export const FORESEEN_MOST = 2e6;
// About so many rows a message has, so many bytes a record of a script, and so many ms an empty receive's rest.
const ROWS_OF_MESSAGE = 4, BYTES_OF_RECORD = 16, REST = 1000;

/** @param {Item | undefined} table @param {string} key @param {number} other */
const numberIn = (table, key, other) => {
  const value = said(table, key);
  return typeof value === 'bigint' ? Number(value) : other;
};

// About how many rows one actor gives, with its copies: of messages that it sends, of its records, or of receives that
// find nothing.
/** @param {Item} actor @param {number} horizon @param {File[]} files @returns {number} */
function rowsOf(actor, horizon, files) {
  const copies = numberIn(actor, 'copies', 1), kind = said(actor, 'kind');
  const left = Math.max(0, horizon - numberIn(actor, 'start_ms', 0));
  if (kind === 'producer') {
    const gap = (numberIn(actor, 'gap_min_ms', 1) + numberIn(actor, 'gap_max_ms', 1)) / 2;
    return copies * ROWS_OF_MESSAGE * Math.min(numberIn(actor, 'count', 1), left / Math.max(1, gap) + 1);
  }
  if (kind === 'consumer') {
    return copies * left / Math.max(1, numberIn(actor, 'idle_ms', REST) + 1000 * numberIn(actor, 'wait_s', 0));
  }
  const file = files.find(({ name }) => name === said(actor, 'script'));
  return file ? ROWS_OF_MESSAGE * file.bytes.length / BYTES_OF_RECORD : 0;
}

// About how many rows a run has. Messages that go round or fail for ever are not foreseen.
/** @param {string} text @param {File[]} files */
export function rowsAbout(text, files) {
  const scenario = new Scenario(text), horizon = numberIn(scenario.top, 'horizon', 0);
  return Math.round(scenario.items('actor').reduce((rows, actor) => rows + rowsOf(actor, horizon, files), 0));
}

export class Side {
  // `changed` is called as the side begins and ends to run.
  /** @param {string} name @param {(side: Side) => void} changed */
  constructor(name, changed) {
    this.name = name;
    this.changed = changed;
    this.text = this.error = '';
    /** @type {File[]} */
    this.files = [];
    // the text that has run, and what came out of it
    /** @type {string | null} */
    this.ran = null;
    /** @type {Outcome | null} */
    this.result = null;
    /** @type {number | null} */
    this.began = null;
    this.asker = new Asker(why => this.stop(why));
    // what came out of other seeds, if they were run
    /** @type {import('./seeds.js').Spread | null} */
    this.spread = null;
  }

  get isRunning() {
    return this.began !== null;
  }

  // Why it does not run by itself; '' if it does.
  get whyWaits() {
    const { text, files } = this;
    if (!isShort(text)) {
      return `This text has more than ${grouped(SHORT_MOST)} letters or ${grouped(SHORT_LINES)} lines, so it does not `
        + 'run by itself: press Run.';
    }
    const rows = rowsAbout(text, files);
    return rows <= FORESEEN_MOST ? ''
      : `This run may give about ${grouped(rows)} rows, so it does not begin by itself: press Run.`;
  }

  /** @param {import('./worker.js').Question} question */
  ask(question) {
    return this.asker.ask(question);
  }

  async run() {
    if (this.isRunning) this.stop('');
    const { text, files } = this, began = this.began = performance.now();
    this.changed(this);
    const answer = await this.ask({ text, files })
      .catch(error => /** @type {Outcome} */ ({ error: `This browser cannot run it: ${error.message}` }));
    if (this.began !== began) return;
    this.began = this.spread = null;
    this.ran = text;
    this.error = answer.error ?? '';
    this.result = answer.error ? null : { ...answer, ...rolesOf(new Scenario(text)) };
    this.changed(this);
  }

  // Ends the worker with what it does.
  /** @param {string} why */
  stop(why) {
    this.asker.end();
    if (!this.isRunning && !why) return;
    this.began = null;
    this.result = null;
    this.error = why;
    this.ran = this.text;
    this.changed(this);
  }

  // What came out; it is asked for only of a side that is done.
  get outcome() {
    return /** @type {Outcome} */ (this.result);
  }

  get isDone() {
    return this.result?.code === 0;
  }

  // The numbers of the run at moments; none before it has run.
  /** @param {import('./moments.js').MomentQuestion} question */
  momentsOf(question) {
    return this.isDone && this.asker.worker ? this.asker.post({ moments: question }).then(answer => answer.moments)
      : null;
  }

  // What the run tells of some queues over time.
  /** @param {import('./overtime.js').Over & { names: string[] }} question */
  over(question) {
    return this.isDone && this.asker.worker ? this.asker.post({ over: question }).then(answer => answer.queues ?? [])
      : [];
  }
}
