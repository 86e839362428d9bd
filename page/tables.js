// @ts-check
// The tables of what happened, as tools/summary prints it: a line for each queue, then one table for each queue, with
// two variants side by side.

import { byId, element, tableOf } from './dom.js';
import { LINES, SHARES } from './facts.js';
import { duration, fixed, grouped, hundredths, several } from './units.js';

/** @typedef {import('./run.js').Values} Values */
/** @typedef {import('./side.js').Side} Side */
/** @typedef {{ [Key in keyof Values]: Values[Key] extends number | null ? Key : never }[keyof Values]} NumberKey */
/** @typedef {[NumberKey, string, (number: number) => string, boolean]} Line */
/** @typedef {[NumberKey, string, (number: number) => string]} Column */

const CARDS_MOST = 12, LINES_MOST = 200;
const WRITERS = { grouped, duration, hundredths };
// The lines of tools/summary: the key of a value, its label, what writes it, and whether it is shown even if it is
// zero. Of what only the tools count there is none.
/** @type {(values: Values) => Line[]} */
const linesIn = values => LINES.flatMap(({ key, label, written, always }) =>
  key in values ? [[/** @type {NumberKey} */ (key), label, WRITERS[written], always]] : []);
/** @type {Column[]} */
const COLUMNS = [['came_in', 'came in', grouped], ['deleted', 'deleted', grouped],
  ['dead_lettered', 'dead-lettered', grouped], ['lost_by_expiry', 'lost', grouped], ['left', 'left', grouped],
  ['age_p50_ms', 'age 50\u00a0%', duration], ['age_p95_ms', 'age 95\u00a0%', duration],
  ['depth_greatest', 'depth', grouped]];

/** @param {string[]} queues */
export const named = queues => queues.length < 3 ? queues.join(' and ') : `${grouped(queues.length)} queues`;

// The note after a number if one run is shown.
/** @param {string} key @param {Values} values */
function noteOf(key, values) {
  const share = SHARES.includes(key) && values.came_in ? `of ${grouped(values.came_in)}` : '';
  if (key === 'handled_more_than_once' && values[key]) {
    return `${share}, at most ${grouped(values.times_handled_greatest ?? 0)} times`;
  }
  if (key === 'dead_lettered' && values[key]) return `${share}, to ${named(values.dead_lettered_to)}`;
  if (key === 'copies_greatest') return `changed ${several(values.copies_changed, 'time')}`;
  if (key === 'moved_away') return `${share}, to ${named(values.moved_to)}`;
  if (key === 'depth_greatest' && values[key]) return `at ${duration(values.depth_greatest_at_ms ?? 0)}`;
  if (key !== 'backlog_gone_at_ms') return share;
  const over = grouped(values.backlog_over);
  if (values.backlog_since_ms !== null) return `(over ${over} wait since ${duration(values.backlog_since_ms)})`;
  return values[key] === null ? `(never over ${over} waited)` : '';
}

/** @param {Line | Column} line @param {Values | undefined} values */
function cellOf([key, , written], values) {
  if (!values) return '-';
  if (key === 'backlog_gone_at_ms' && values.backlog_since_ms !== null) return 'never';
  const value = values[key];
  return value === null ? '-' : written(value);
}

/** @param {Line} line @param {(Values | undefined)[]} sides */
function cellOfDifference([key, , written], [before, after]) {
  const [was, is] = [before?.[key] ?? null, after?.[key] ?? null];
  if (was === null || is === null) return '-';
  const difference = Number(fixed(is - was, 3));
  return difference ? (difference > 0 ? '+' : '-') + written(Math.abs(difference)) : '0';
}

/** @param {Line} line @param {(Values | undefined)[]} sides */
function isTold([key, , , always], sides) {
  const there = sides.flatMap(values => values ?? []);
  if (key === 'depth_greatest_at_ms' && sides.length === 1) return false;
  if (/^(age_|tries_|new_age_|moved_age_)/.test(key)) return there.some(values => values[key] !== null);
  return always || there.some(values => values[key]);
}

// The lines of one queue: { cells, className } for each, with its label, its numbers and the note.
/** @param {(Values | undefined)[]} sides */
function linesOf(sides) {
  const one = sides.find(values => values);
  return (one ? linesIn(one) : []).filter(line => isTold(line, sides)).map(line => {
    const cells = sides.map(values => cellOf(line, values)), isAlarm = line[0] === 'lost_by_expiry'
      && sides.some(values => values && values[line[0]]);
    cells.push(sides.length === 2 ? cellOfDifference(line, sides) : sides[0] ? noteOf(line[0], sides[0]) : '');
    return { cells: [line[1], ...cells], className: isAlarm ? 'alarm' : '' };
  });
}

/** @param {string} name @param {(Values | undefined)[]} sides @param {string[]} titles */
function cardOf(name, sides, titles) {
  const isIdle = sides.every(values => !values || !values.came_in && !values.requests);
  const body = isIdle ? element('p', { textContent: 'No message came in, and nobody called it.' })
    : element('div', { className: 'scrolls', tabIndex: 0, role: 'region', 'aria-label': `numbers of ${name}` },
      tableOf(`What happened in ${name}`, ['', ...titles], linesOf(sides)));
  for (const label of body.querySelectorAll('tbody th')) {
    const text = label.textContent ?? '';
    label.setAttribute('data-depth', String(text.length - text.trimStart().length));
    label.textContent = text.trim();
  }
  const className = sides.length === 1 ? 'card single' : 'card';
  return element('div', { className }, element('h4', { textContent: name }), body);
}

// All queues in one table, a line each; with two variants a line for each of them.
/** @param {string[]} names @param {(name: string) => (Values | undefined)[]} valuesOf @param {Side[]} sides */
function overviewOf(names, valuesOf, sides) {
  const rows = names.slice(0, LINES_MOST).flatMap(name => valuesOf(name).map((values, i) => ({
    cells: [sides.length === 2 ? `${name} ${sides[i].name}` : name, ...COLUMNS.map(column => cellOf(column, values))],
    className: values?.lost_by_expiry ? 'alarm' : '' })));
  return element('div', { className: 'scrolls', tabIndex: 0, role: 'region', 'aria-label': 'all queues' },
    tableOf('All queues', ['queue', ...COLUMNS.map(([, title]) => title)], rows));
}

// Shows the numbers of one variant, or of two with their difference.
/** @param {Side[]} sides */
export function showTables(sides) {
  const bySide = sides.map(side => new Map(side.outcome.values.map(values => [values.queue, values])));
  const names = [...new Set(bySide.flatMap(values => [...values.keys()]))];
  const valuesOf = (/** @type {string} */ name) => bySide.map(values => values.get(name));
  const busy = names.filter(name => valuesOf(name).some(values => values && (values.came_in || values.requests)));
  const cards = (names.length > CARDS_MOST ? busy : names).slice(0, CARDS_MOST);
  const titles = sides.length === 2 ? [...sides.map(side => side.name), 'difference'] : ['', ''];
  const bounded = [names.length > LINES_MOST ? `The first ${LINES_MOST} of ${grouped(names.length)} queues have a line.`
    : '', names.length > cards.length ? `${cards.length} of ${grouped(names.length)} queues have a table.` : ''];
  byId('tables').replaceChildren(...(names.length > 1 ? [overviewOf(names, valuesOf, sides)] : []),
    element('p', { className: 'note', textContent: bounded.join(' ').trim() }),
    element('div', { className: 'cards' }, ...cards.map(name => cardOf(name, valuesOf(name), titles))));
}

// A line on what was lost, the one thing that nobody wants; empty if nothing was.
/** @param {Side[]} sides */
export function lossOf(sides) {
  return sides.map(side => {
    const lost = side.outcome.values.filter(values => values.lost_by_expiry);
    const count = lost.reduce((sum, values) => sum + values.lost_by_expiry, 0);
    return count ? `${sides.length > 1 ? `${side.name}: ` : ''}lost by expiry: ${grouped(count)} in `
      + named(lost.map(values => values.queue)) : '';
  }).filter(line => line).join('; ');
}
