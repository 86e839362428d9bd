// @ts-check
// The answer on top of the results: a sentence on what came out, and a tile for each number that people look at first.
// All are of the numbers that the tables show.

import { byId, element, setText } from './dom.js';
import { written } from './numbers.js';
import { agentsOf, forwardsOf, said } from './scenario.js';
import { named } from './tables.js';
import { duration, grouped, several } from './units.js';

/** @typedef {import('./run.js').Values} Values */
/** @typedef {import('./scenario.js').Item} Item */
/** @typedef {import('./scenario.js').Scenario} Scenario */
/** @typedef {import('./side.js').Side} Side */
/** @typedef {import('./side.js').Outcome} Outcome */
/** What a scenario says of its parts: which queues only dead letters may come to, and the names of those consumers
 * whose rows say how busy they are.
 * @typedef {{ forDeadLetters: string[], consumers: string[] }} Roles */
/** What a run says that has the roles of its scenario.
 * @typedef {Pick<Outcome, 'values' | 'busy' | keyof Roles>} Told */
/**
 * What a tile says: its number (null if there is none), how it is written, a note, and whose number it is.
 * @typedef {{ label: string, number: number | null, written: (number: number) => string, note: string,
 *   name?: string }} Tile
 */

/** @template {string} Key @param {Record<Key, number>[]} queues @param {Key} key */
const sumOf = (queues, key) => queues.reduce((all, queue) => all + queue[key], 0);

// The queue whose number is greatest, the first of several; undefined if none has one.
/** @template {string} Key @template {Record<Key, number | null>} Of @param {Of[]} queues @param {Key} key
 * @returns {Of | undefined} */
export const greatestBy = (queues, key) => queues.filter(queue => queue[key] !== null)
  .reduce((most, queue) => most && Number(most[key]) >= Number(queue[key]) ? most : queue,
    /** @type {Of | undefined} */ (undefined));

// The queues that others send their dead letters to, by their names.
/** @param {Values[]} values */
const deadLetterQueues = values => new Set(values.flatMap(queue => queue.dead_lettered_to));

// Whether an actor may send to its queue; of a script in a file that is not known.
/** @param {Item} actor */
function maySend(actor) {
  const kind = said(actor, 'kind'), calls = said(actor, 'calls');
  return kind === 'producer' || kind === 'script' && (typeof calls !== 'string' || /^"?\d+"?,"?send\b/m.test(calls));
}

// The queues of a scenario that only dead letters may come to: nobody sends to them, and nothing is forwarded there.
/** @param {Scenario} scenario @returns {string[]} */
export function forDeadLetters(scenario) {
  const actors = scenario.items('actor'), names = (/** @type {Item[]} */ items, /** @type {string} */ key) =>
    items.map(item => said(item, key));
  const others = new Set([...names(actors.filter(maySend), 'queue'), ...actors.flatMap(forwardsOf),
    ...names(scenario.items('task'), 'to')]);
  return names(scenario.items('queue'), 'dead_letter').flatMap(name =>
    typeof name === 'string' && !others.has(name) ? [name] : []);
}

/** @param {Scenario} scenario @returns {Roles} */
export function rolesOf(scenario) {
  // No row says when a consumer that gathers messages begins to serve.
  const told = scenario.items('actor')
    .filter(actor => said(actor, 'kind') === 'consumer' && !said(actor, 'gather_ms'));
  const consumers = told.flatMap(actor => {
    const name = said(actor, 'name');
    return typeof name === 'string' ? agentsOf(actor, name) : [];
  });
  return { forDeadLetters: forDeadLetters(scenario), consumers };
}

// The queues that a reader asks about: all but those that only dead letters may come to, or all if there is no other.
/** @param {Pick<Outcome, 'values' | 'forDeadLetters'>} result */
export function mainQueues({ values, forDeadLetters }) {
  const others = values.filter(({ queue }) => !forDeadLetters.includes(queue));
  return others.length ? others : values;
}

// A consumer that is busy for more of a run than this, in thousandths, may never keep up.
const BUSY_MOST = 900;
/** @param {number} permille */
const share = permille => written('busy_permille', permille);

// The consumer that was busy for most of a run, the first of several; undefined if there is none.
/** @param {Pick<Told, 'busy' | 'consumers'>} result */
function busiestOf({ busy, consumers }) {
  const names = new Set(consumers);
  return greatestBy(busy.filter(({ name }) => names.has(name)), 'permille');
}

const ARROWS = { better: '↓ ', worse: '↑ ', '': '' };

/** @param {string[]} names */
const inQueues = names => names.length ? `in ${named(names)}` : '';

// The tiles of a run: what each says, its number (null if there is none), how it is written, and a note.
/** @param {Told} result @returns {Tile[]} */
export function tilesOf(result) {
  const { values } = result, queues = mainQueues(result), slowest = greatestBy(queues, 'age_p95_ms');
  const deepest = greatestBy(queues, 'depth_greatest'), busiest = busiestOf(result);
  const noted = (/** @type {Values | undefined} */ queue) => queues.length > 1 && queue ? `in ${queue.queue}` : '';
  return [
    { label: 'dead letters', number: sumOf(values, 'dead_lettered'), written: grouped,
      note: inQueues([...deadLetterQueues(values)].sort()) },
    { label: 'age at 95 %', number: slowest ? slowest.age_p95_ms : null, written: duration, note: noted(slowest) },
    { label: 'handled again', number: sumOf(values, 'handled_more_than_once'), written: grouped, note: '' },
    { label: 'greatest backlog', number: deepest?.depth_greatest ?? 0, written: grouped,
      note: deepest?.depth_greatest ? `${noted(deepest)} at ${duration(deepest.depth_greatest_at_ms ?? 0)}`.trim()
        : '' },
    { label: 'busiest consumer', number: busiest ? busiest.permille : null, written: share, note: '',
      name: busiest?.name }];
}

/** @param {string[]} parts */
const joined = parts => parts.length < 2 ? parts.join('') : `${parts.slice(0, -1).join(', ')} and ${parts.at(-1)}`;

// What came out, in a sentence or two: of the one queue that is asked about, or of all of them together.
/** @param {Told & Pick<Outcome, 'last'>} result */
export function sentenceOf(result) {
  const { values, last } = result, queues = mainQueues(result), only = queues.length === 1 ? queues[0] : null;
  const came = only ? only.came_in : sumOf(queues, 'sent'), slowest = greatestBy(queues, 'age_p95_ms');
  if (!came) return `In ${duration(last ?? 0)}, no message came in.`;
  const targets = [...deadLetterQueues(values)].sort(), dead = sumOf(values, 'dead_lettered');
  /** @type {[number, string][]} */
  const counts = [only ? [only.deleted, 'deleted'] : [0, ''], [dead, `dead-lettered to ${named(targets)}`],
    [only?.moved_away ?? 0, 'moved away by a task'], [sumOf(queues, 'lost_by_expiry'), 'lost by expiry'],
    [sumOf(queues, 'left'), 'left at the end']];
  const parts = counts.filter(([number]) => number).map(([number, what]) =>
    `${grouped(number)} ${number === 1 ? 'was' : 'were'} ${what}`.replace('were left', 'are left')
      .replace('was left', 'is left'));
  const begin = only ? `${several(came, 'message')} came into ${only.queue}`
    : `${several(came, 'message')} ${came === 1 ? 'was' : 'were'} sent to ${grouped(queues.length)} queues`;
  const ages = slowest ? ` 95 of 100 took at most ${duration(slowest.age_p95_ms ?? 0)}${only ? ''
    : ` in ${slowest.queue}, the slowest`}.` : '';
  const busiest = busiestOf(result), isOver = busiest && busiest.permille > BUSY_MOST;
  const busy = isOver ? ` ${busiest.name} was busy ${share(busiest.permille)} of the time: over ${share(BUSY_MOST)}, `
    + 'ages depend on how long the run is.' : '';
  return `In ${duration(last ?? 0)}, ${begin}${parts.length ? `: ${joined(parts)}` : ''}.${ages}${busy}`;
}

// What a tile says of other seeds, whose words are left out where there is no place for them.
/** @param {[number, number, number] | null} range @param {(number: number) => string} text @param {number} count */
function spreadTold(range, text, count) {
  if (!range) return [];
  const [least, middle, greatest] = range.map(text);
  const wide = (/** @type {string} */ words) => element('span', { className: 'wide', textContent: words });
  return least === greatest ? ['same', wide(` in ${count} seeds`)]
    : [`${least} to ${greatest}`, wide(`, middle ${middle}, in ${count} seeds`)];
}

// The tile of a number, with what it was before or in the other variant, its range over seeds, and whether it is more
// than what is required. Less is better in each.
/** @param {Tile} tile @param {Tile | undefined} before
 * @param {(text: (number: number | null) => string) => import('./dom.js').Part[]} told @param {boolean} isBroken */
function tileOf({ label, number, written, note, name = '' }, before, told, isBroken) {
  const text = (/** @type {number | null | undefined} */ value) =>
    value === null || value === undefined ? 'none' : written(value);
  const isOther = before && text(before.number) !== text(number);
  /** @type {keyof typeof ARROWS} */
  const sign = !isOther || before.number === null || number === null ? ''
    : number < before.number ? 'better' : 'worse';
  return element('div', { className: `tile ${sign} ${isBroken ? 'broken' : ''}` },
    element('span', { className: 'label' }, label,
      note ? element('span', { className: 'of', textContent: ` ${note}` }) : ''),
    element('strong', { textContent: text(number) }), element('span', { className: 'name', textContent: name }),
    element('span', { className: 'was', textContent: !isOther ? '' : `${ARROWS[sign]}from ${text(before.number)}` }),
    element('span', { className: 'spread-of' }, ...told(text)));
}

// Shows the answer of one variant, with what its tiles were before a slider moved, or of two: from A to B. Gives its
// tiles.
/** @param {Side[]} sides @param {Tile[] | null} before @param {import('./require.js').Requirement} require */
export function showAnswer(sides, before, require) {
  const side = sides[sides.length - 1], tiles = tilesOf(side.outcome), { spread } = side;
  const from = sides.length > 1 ? tilesOf(sides[0].outcome) : before;
  setText(byId('answer'), `${sides.length > 1 ? `${side.name}: ` : ''}${sentenceOf(side.outcome)}`);
  byId('tiles').replaceChildren(...tiles.map((tile, i) => tileOf(tile, from?.[i],
    text => spread ? spreadTold(spread.rangeOf(i), text, spread.count) : [], require.isBroken(i, tile.number))));
  require.name(tiles);
  require.tell(tiles, spread);
  return tiles;
}
