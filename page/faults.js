// @ts-check
// Says why the program refuses a scenario, and where in its text, as tools/explain does.
//
// KEYS has for each kind of table, as `queue//1` or `actor/producer/2`, its keys as tools/rehearse_tools/keys.py has
// them, and RULES what tools/rehearse_tools/explain.py says of names and of the items of lists.

import { ACTORS, KEYS, RULES, SCRIPT_HEADER } from './facts.js';
import { PLACE, Scenario, said } from './scenario.js';
import { grouped, several } from './units.js';

/** @typedef {import('./scenario.js').Item} Item */
/** @typedef {import('./facts.js').Key} Key */

/** @type {Record<string, string>} */
const KINDS = { text: 'a text', truth: 'true or false', integer: 'a whole number', float: 'a number with a fraction',
  list: 'a list', table: 'a table', date: 'a date or time' };
const NUMBER = 'a whole number';
export const TABLES = 'a list of tables';
export const REQUIRED = 'required';
// What one may write first for a list that is the value of a key.
/** @type {Record<string, string>} */
export const FIRST_LISTS = { 'a list of whole numbers': '[1]', 'a list of pairs [permille, ms]': '[[0, 1], [1000, 1]]',
  'a list of pairs [group, weight]': '[["g", 1]]', 'a list of pairs [visible, copies]': '[[100, 1]]' };
const NUMBER_OR_NUMBERS = 'a whole number or a list of whole numbers';
/** @param {Key} key */
export const mayBeNumber = key => key.kind === NUMBER || key.kind === NUMBER_OR_NUMBERS;
const NAME_MOST = 80, COPIES_MOST = 1000n, VERSION_3 = 3;
// The kinds of actors that may have copies.
/** @type {unknown[]} */
const COPIED = ['producer', 'consumer'];

// A value for a message.
/** @param {unknown} value */
const shown = value => value === '' ? "''" : String(value).slice(0, 100);

// The version of a scenario whose keys are looked at; that of a text without one is 1.
/** @param {Scenario} scenario */
export function versionOf(scenario) {
  const version = said(scenario.top, 'version');
  return version === 2n || version === 3n ? Number(version) : 1;
}

// How alike two words are, from 0 to 1: twice the letters of their longest common parts, of all letters.
/** @param {string} one @param {string} other @returns {number} */
function likeness(one, other) {
  /** @type {(a: string, b: string) => number} */
  const common = (a, b) => {
    /** @type {[number, number, number]} */
    let best = [0, 0, 0];
    for (let i = 0; i < a.length; i++) {
      for (let j = 0; j < b.length; j++) {
        let length = 0;
        while (i + length < a.length && a[i + length] === b[j + length]) length++;
        if (length > best[2]) best = [i, j, length];
      }
    }
    const [i, j, length] = best;
    return length && length + common(a.slice(0, i), b.slice(0, j)) + common(a.slice(i + length), b.slice(j + length));
  };
  const letters = one.length + other.length;
  return letters ? 2 * common(one.slice(0, 100), other.slice(0, 100)) / letters : 1;
}

// The nearest of some words; undefined if none is near.
/** @param {unknown} word @param {readonly string[]} words */
const nearestOf = (word, words) =>
  words.map(it => ({ it, ratio: likeness(it, String(word)) })).filter(({ ratio }) => ratio >= 0.6)
    .sort((a, b) => b.ratio - a.ratio || (a.it < b.it ? 1 : -1))[0]?.it;
/** @param {unknown} word @param {readonly string[]} words */
const nearest = (word, words) => {
  const found = nearestOf(word, words);
  return found ? ` Did you mean ${found}?` : '';
};

export class Fault {
  // `line` is the program's, as `refused 14 OutOfRange at queue[0].delay_s`; `files` are the names of script files.
  /** @param {string} text @param {string} line @param {string[]} files */
  constructor(text, line, files) {
    this.scenario = new Scenario(text);
    this.line = line;
    this.files = files;
    const [, , kind, , place] = /^refused ([0-9]+) ([A-Za-z]+)( at ([^]*))?/.exec(line) ?? [];
    const match = PLACE.exec(place ?? '');
    this.kind = kind ?? '';
    this.of = match ? match[1] : '';
    this.number = match ? Number(match[2]) : 0;
    // undefined where the refusal is of a table as a whole
    /** @type {string | undefined} */
    this.key = match ? match[3] : place ?? '';
    /** @type {number | undefined} */
    this.record = undefined;
    const record = match && /^(calls|script)(?::([0-9]+))?$/.exec(this.key ?? '');
    if (record) {
      this.key = record[1];
      this.record = Number(record[2] ?? 0);
    }
    this.table = match ? this.scenario.items(this.of)[this.number] : this.scenario.top;
    // the number of an item of the list at the key, or null
    const item = match && /^(\w+)\[([0-9]+)\]$/.exec(this.key ?? '');
    this.item = item ? Number(item[2]) : null;
    if (item) this.key = item[1];
    /** @type {Item | undefined} */
    const list = this.table?.type === 'table' ? this.table.value.get(this.key) : undefined;
    /** @type {Item | undefined} */
    this.node = this.item === null ? list : list?.value?.[this.item] ?? list;
  }

  /** @param {string} key */
  value(key) {
    return said(this.table, key);
  }

  get version() {
    return versionOf(this.scenario);
  }

  get kindOfActor() {
    return this.of === 'actor' && ACTORS.includes(String(this.value('kind'))) ? String(this.value('kind')) : '';
  }

  /** @param {string} kind @param {number} version */
  keysIn(kind, version) {
    return KEYS[`${this.of}/${kind}/${version}`] ?? [];
  }

  get keys() {
    return this.keysIn(this.kindOfActor, this.version);
  }

  get found() {
    return this.keys.find(key => key.name === this.key);
  }

  isFifo() {
    return String(this.value(this.of === 'queue' ? 'name' : 'queue')).endsWith('.fifo');
  }

  title() {
    if (!this.of) return 'the scenario';
    const name = this.value('name'), kind = this.kindOfActor || this.of;
    return typeof name === 'string' ? `the ${kind} ${name}` : `${kind} number ${this.number + 1}`;
  }

  // Where the fault is in the text: its first character, and the end of what is marked; null if it has no place.
  /** @returns {[number, number] | null} */
  get place() {
    const { text, lost } = this.scenario;
    if (this.kind === 'NotToml') return lost === null ? null : [lost, Math.max(lost, text.indexOf('\n', lost))];
    if (this.record !== undefined && this.node?.type === 'text') return this.placeOfRecord(this.node);
    const isOfKey = this.kind === 'UnknownKey' || this.kind === 'MissingKey';
    if (this.node) return isOfKey ? [this.node.key, this.node.to] : [this.node.from, this.node.to];
    return this.of && this.table ? [this.table.key, this.table.to] : null;
  }

  // The place of a record of a script in the text, whose lines are those of the script if it is between three quotes.
  /** @param {Item} node @returns {[number, number]} */
  placeOfRecord({ from, to }) {
    const { text } = this.scenario;
    if (!/^("""|''')/.test(text.slice(from, from + 3))) return [from, to];
    let at = from + 3;
    if (text.startsWith('\r\n', at)) at += 2;
    else if (text[at] === '\n') at += 1;
    for (let number = 1; at < to - 3; number++) {
      while (text[at] === '\n' || text[at] === '\r') at++;
      const begin = at;
      for (let isQuoted = false; at < to - 3 && (isQuoted || text[at] !== '\n'); at++) {
        if (text[at] === '"') isQuoted = !isQuoted;
      }
      if (number === Math.max(1, this.record ?? 1)) return [begin, Math.max(begin + 1, at)];
    }
    return [from, to];
  }

  // What is wrong, in whole sentences.
  get reason() {
    const sentence = REASONS[this.kind]?.(this) ?? '';
    return sentence.startsWith(this.key || '\0') ? sentence : sentence.slice(0, 1).toUpperCase() + sentence.slice(1);
  }
}

/** @param {Key | undefined} key */
export function rangeText(key) {
  if (!key) return '';
  if (key.name === 'version') return ' It is 1 or 2, or 3 for the word --v3.';
  if (RULES.lists[key.kind]) {
    const each = key.items ? `, each from ${grouped(key.items[0])} to ${grouped(key.items[1])}` : '';
    return ` It has ${grouped(key.low ?? 0)} to ${grouped(key.high ?? 0)} ${RULES.lists[key.kind]}${each}.`;
  }
  if (key.words) return ` It is ${key.words.slice(0, -1).join(', ')} or ${key.words.at(-1)}.`;
  if (key.kind === KINDS.text && key.high) return ` It has ${key.low} to ${key.high} bytes.`;
  if (!mayBeNumber(key)) return ` It is ${key.kind}.`;
  const byDefault = key.default === null || key.default === REQUIRED ? ''
    : `, and ${grouped(String(key.default))} where it is not given`;
  return ` It has ${grouped(key.low ?? 0)} to ${grouped(key.high ?? 0)}${byDefault}.`;
}

// The value of the key that is the least value of a key, or its default.
/** @param {Fault} fault @param {Key | undefined} key @returns {unknown} */
function leastOf(fault, key) {
  if (!key?.least) return undefined;
  const byDefault = fault.keys.find(({ name }) => name === key.least)?.default;
  return fault.value(key.least) ?? (typeof byDefault === 'number' ? BigInt(byDefault) : undefined);
}

// The range of a key, which begins at the value of another one where that is its least.
/** @param {Fault} fault @param {Key | undefined} key */
function rangeBeside(fault, key) {
  const least = leastOf(fault, key);
  const isIn = typeof least === 'bigint' && key && least >= BigInt(key.low ?? 0) && least <= BigInt(key.high ?? 0);
  if (!key || !isIn) return rangeText(key);
  return ` It has ${grouped(least)} to ${grouped(key.high ?? 0)}, as ${key.least} is ${grouped(least)}.`;
}

/** @param {Fault} fault */
function unknownKey(fault) {
  const { key, found } = fault, title = fault.title();
  if (found?.queues && (found.queues === 'FIFO') !== fault.isFifo()) {
    const other = found.queues === 'FIFO' ? 'a standard queue' : 'a FIFO queue';
    return `${key} is a key of ${found.queues} queues alone, and ${title} ${fault.of === 'queue' ? 'is' : 'is at'} `
      + `${other}.`;
  }
  if (found && (key === 'calls' || key === 'script')) {
    return `${title} has both calls and script; one of them is enough.`;
  }
  if (found?.beside.length) {
    return `${key} stands only together with ${found.beside.join(' or ')}, which ${title} does not have.`;
  }
  if (found && key === 'fail_service_ms') {
    return `${title} has batch_service = "once", beside which ${key} stands only together with batch_fails = "whole".`;
  }
  const other = fault.keys.find(({ name, replaces }) =>
    replaces.includes(String(key)) && fault.value(name) !== undefined);
  if (other) return `${title} has both ${key} and ${other.name}; ${other.name} takes its place.`;
  const of = [1, 2, 3].find(it => fault.keysIn(fault.kindOfActor, it).some(({ name }) => name === key));
  if (!found && of) {
    const latency = fault.version === 1 ? 'latency_ms' : 'latency_min_ms and latency_max_ms';
    const wanted = key?.startsWith('latency_') ? latency : 'no such key';
    return `${key} is a key of version ${of}; version ${fault.version} has ${wanted}.`;
  }
  const kinds = ACTORS.filter(kind => fault.keysIn(kind, fault.version).some(({ name }) => name === key));
  if (fault.of === 'actor' && kinds.length) return `${key} is a key of a ${kinds.join(' or ')}, and ${title} is none.`;
  const known = fault.keys.filter(({ queues }) => !queues || (queues === 'FIFO') === fault.isFifo());
  const names = known.map(({ name }) => name);
  return `${shown(key)} is no key of ${title}; it has ${names.join(', ')}.${nearest(key, names)}`;
}

/** @param {Fault} fault */
function missingKey(fault) {
  const { key, found } = fault, title = fault.title();
  if (key === 'calls') return `${title} has neither calls nor script, and needs one of them.`;
  const beside = found?.beside.length ? ` beside ${found.beside.join(' or ')}` : '';
  const at = found?.queues ? ` at a ${found.queues} queue` : '';
  const other = beside ? undefined : fault.keys.find(({ replaces }) => replaces.includes(String(key)));
  const instead = other ? `; ${other.name} may be there in its place` : '';
  const names = fault.keys.map(({ name }) => name);
  const unknown = fault.table?.type === 'table' ? [...fault.table.value.keys()].filter(it => !names.includes(it)) : [];
  const near = nearestOf(key, unknown);
  return `${title} has no ${key}, which is required${beside}${at}${instead}.${rangeBeside(fault, found)}`
    + (near ? ` Is ${near} meant to be it?` : '');
}

/** @param {Fault} fault */
function wrongType(fault) {
  const { key, found, node } = fault;
  if (key === undefined) {
    return `Item number ${fault.number + 1} of ${fault.of} is ${KINDS[fault.table?.type ?? '']}, and has to be a `
      + 'table.';
  }
  if (fault.item !== null) {
    return `${itemText(fault)}, and has to be ${RULES.forms[found?.kind ?? ''] ?? 'of another kind'}.`;
  }
  if (node?.type === 'list' && (key === 'forward' || key === 'fails_permille')) {
    const why = key === 'forward' ? 'which is of version 3' : 'which stands only beside fails_between_ms';
    return `${whatIsHere(fault)} is a list, ${why}.`;
  }
  const isTables = found?.kind === TABLES;
  const hint = found?.kind === NUMBER && node?.type === 'text' && /^\s*[0-9]+\s*$/.test(node.value)
    ? ' A number stands without quotes.' : isTables ? ` Each begins with [[${key}]].` : '';
  const wanted = found?.kind ?? 'of another kind';
  return `${key} of ${fault.title()} is ${KINDS[node?.type ?? '']}, and has to be ${wanted}.${hint}`
    + (found && !isTables ? rangeText(found) : '');
}

// A value of TOML in one line; a long one is cut.
/** @param {Item} node @returns {string} */
function tomlOf(node) {
  const inTables = (/** @type {Map<string, Item>} */ table) =>
    [...table].map(([key, value]) => `${key} = ${tomlOf(value)}`).join(', ');
  if (node.type === 'text') return JSON.stringify(node.value);
  if (node.type === 'list') return `[${node.value.map(tomlOf).join(', ')}]`;
  return node.type === 'table' ? `{${inTables(node.value)}}` : String(node.value);
}

// What a fault is of, as it begins a sentence: a key of a table, or an item of its list.
/** @param {Fault} fault */
const whatIsHere = fault => `${fault.item === null ? '' : `Item number ${fault.item + 1} of `}${fault.key} of `
  + fault.title();
/** @param {Fault} fault */
const itemText = fault => `${whatIsHere(fault)} is ${fault.node ? shown(tomlOf(fault.node)) : ''}`;

/** @param {Fault} fault */
function itemOutOfRange(fault) {
  const { found } = fault;
  const range = found?.items
    ? rangeText({ ...found, kind: NUMBER, low: found.items[0], high: found.items[1], default: null }).trim()
    : RULES.rules[found?.kind ?? ''] ?? '';
  return `${itemText(fault)}. ${range}`;
}

// A list with too few or too many items.
/** @param {Fault} fault */
function wrongLength(fault) {
  const { found, node } = fault, text = `${whatIsHere(fault)} has ${several(node?.value?.length ?? 0, 'item')}`;
  if (found?.kind !== NUMBER_OR_NUMBERS) return `${text}.${rangeText(found)}`;
  const beside = found.beside.at(-1), list = fault.value(String(beside));
  const pairs = several(Array.isArray(list) ? list.length : 0, 'pair');
  return `${text}, and ${beside} ${pairs}. Each pair has one number.`;
}

/** @param {Fault} fault */
function outOfRange(fault) {
  const { key, found, node } = fault, value = shown(node?.value);
  const text = fault.of ? `${key} of ${fault.title()} is ${value}.` : `${key} is ${value}.`;
  if (key === 'queue' && !fault.of) return 'A scenario has at least one queue.';
  if (fault.item !== null) return itemOutOfRange(fault);
  if (RULES.lists[found?.kind ?? ''] || node?.type === 'list') return wrongLength(fault);
  if (key === 'kind' && ACTORS.includes(value)) return `${text} A ${value} is an actor of version ${VERSION_3}.`;
  if (key === 'kind') return `${text}${rangeText(found)}${nearest(value, found?.words ?? ACTORS)}`;
  if (key === 'body') return `${text} It has 1 byte at least for the first message, and 1,024 at most for the last.`;
  if (key === 'script') {
    return `${text} The name of a script has 1 to 80 ASCII letters, digits, ., - and _, and no dot first.`;
  }
  if (key === 'sampled') return `${text} It has 1 to hosts, which is ${fault.value('hosts') ?? 1}.`;
  if (key === 'reading_s') {
    return `${text} It has 0 to ${grouped(Number(fault.value('every_s')) - 1)}, since it is less than every_s.`;
  }
  const least = leastOf(fault, found);
  if (typeof least === 'bigint' && typeof node?.value === 'bigint' && node.value < least) {
    return `${text} It may not be less than ${found?.least}, which is ${grouped(least)}.`;
  }
  return `${text}${rangeBeside(fault, found)}${found?.words ? nearest(value, found.words) : ''}`;
}

// The names of the copies of an actor's table, if it has some.
/** @param {Fault} fault @param {Item | undefined} item @returns {string[]} */
function copiesOf(fault, item) {
  const count = said(item, 'copies');
  const isCount = typeof count === 'bigint' && count >= 1n && count <= COPIES_MOST;
  return fault.version < VERSION_3 || !COPIED.includes(said(item, 'kind')) || !isCount ? []
    : Array.from({ length: Number(count) }, (_, i) => `${said(item, 'name')}-${i + 1}`);
}

/** @param {Fault} fault */
function badName(fault) {
  const value = String(fault.value('name'));
  if (fault.key !== 'copies') {
    return `The name ${shown(value)} will not do. ${RULES.names[fault.of === 'queue' ? 'queue' : 'actor']}`;
  }
  const longest = copiesOf(fault, fault.table).reduce((long, name) => name.length > long.length ? name : long, '');
  return `The name ${shown(longest)} of a copy has ${longest.length} characters, and may have ${NAME_MOST}.`;
}

// What has each name that the tables before the place of the fault have.
/** @param {Fault} fault */
function takenBefore(fault) {
  /** @type {Map<unknown, string>} */
  const taken = new Map(), { scenario } = fault;
  for (const of of ['queue', 'actor', 'task']) {
    for (const [number, item] of scenario.items(of).entries()) {
      if (of === fault.of && number === fault.number) return taken;
      const name = said(item, 'name'), has = (/** @type {string} */ it, /** @type {string} */ what) =>
        taken.has(it) || taken.set(it, what);
      if (typeof name !== 'string') continue;
      const [line] = scenario.lineAndColumn(item.value.get('name').key);
      has(name, `The ${of} in line ${line}`);
      if (of !== 'actor') continue;
      const copied = `A copy of the ${said(item, 'kind')} in line ${line}`;
      for (const copy of copiesOf(fault, item)) has(copy, copied);
    }
  }
  return taken;
}

/** @param {Fault} fault */
function nameTwice(fault) {
  const taken = takenBefore(fault);
  const names = fault.key === 'name' ? [fault.value('name')] : copiesOf(fault, fault.table);
  const name = [...taken.keys()].find(it => names.includes(it));
  return name === undefined ? `The name ${names[0]} stands twice.`
    : `${taken.get(name)} has the name ${shown(name)} already; queues, actors and tasks share their names.`;
}

// The names of the scalers at the home of an actor.
/** @param {Fault} fault */
const scalersAt = fault => fault.scenario.items('actor').flatMap(item => {
  const name = said(item, 'name'), isThere = said(item, 'queue') === fault.value('queue');
  return said(item, 'kind') === 'scaler' && isThere && typeof name === 'string' ? [name] : [];
});

/** @param {Fault} fault */
function unknownQueue(fault) {
  const { key } = fault, value = String(fault.node?.value), title = fault.title();
  if (key === 'scaler') {
    return `${whatIsHere(fault)} is ${shown(value)}, and no actor with kind = "scaler" at its queue has this name.`
      + nearest(value, scalersAt(fault));
  }
  const queues = fault.scenario.items('queue').flatMap(item => {
    const name = said(item, 'name');
    return typeof name === 'string' ? [name] : [];
  });
  if (!queues.includes(value)) {
    return `${whatIsHere(fault)} is ${value}, and there is no queue of this name.${nearest(value, queues)}`;
  }
  if (fault.of === 'task' && key === 'queue') {
    return `${title} is at ${value}, which is no queue's dead_letter; a task moves dead letters alone.`;
  }
  return `${key} of ${title} is the queue itself; it has to be another one.`;
}

/** @param {Fault} fault */
function kindMismatch(fault) {
  const value = String(fault.node?.value), home = String(fault.value(fault.of === 'queue' ? 'name' : 'queue'));
  const [to, at] = [value, home].map(name => name.endsWith('.fifo') ? 'a FIFO queue' : 'a standard queue');
  return `${whatIsHere(fault)} is ${value}, ${to}, and ${home} is ${at}; both have to be of one kind.`;
}

/** @param {Fault} fault */
function tooMany(fault) {
  if (!fault.of && (fault.key === 'actor' || fault.key === 'task')) {
    return 'Actors and tasks together are at most 10,000.';
  }
  if (fault.key === 'copies') return 'Actors with all their copies, and tasks, are at most 10,000 together.';
  if (RULES.lists[fault.found?.kind ?? '']) return wrongLength(fault);
  if (fault.record !== undefined) return 'A script has at most 100,000 records after the first, and 16,777,216 bytes.';
  return fault.key ? 'A scenario has at most 1,000 queues.' : 'A scenario has at most 16,777,216 bytes.';
}

/** @param {Fault} fault */
function badScript(fault) {
  const { record, files } = fault, isInFile = fault.key === 'script', file = shown(fault.node?.value);
  if (isInFile && !files.includes(fault.node?.value)) {
    return `The script of ${fault.title()} is in the file ${file}, which is not here. Load it, or put its text into `
      + 'calls.';
  }
  if (isInFile && !record) return `The script ${file} of ${fault.title()} is no text in UTF-8.`;
  const which = `record ${Math.max(1, record ?? 1)} of ${isInFile ? `the script ${file} of ` : ''}${fault.title()}`;
  return (record ?? 1) <= 1 ? `${which}: the first record has to be ${SCRIPT_HEADER}.`
    : `${which} is no call that may stand there: its fields, their ranges or its time do not fit. The fields are `
      + `${SCRIPT_HEADER}, and times ascend.`;
}

/** @param {Fault} fault */
function notToml({ scenario }) {
  if (scenario.lost === null) return 'It may be a number past 64 bits, or a key that is given twice.';
  const [line, column] = scenario.lineAndColumn(scenario.lost);
  return `From line ${line}, column ${column} on the text is no TOML. It may also be a key that is given twice.`;
}

/** @type {Record<string, (fault: Fault) => string>} */
export const REASONS = { NotToml: notToml, UnknownKey: unknownKey, MissingKey: missingKey, WrongType: wrongType,
  OutOfRange: outOfRange, NameTwice: nameTwice, UnknownQueue: unknownQueue, KindMismatch: kindMismatch,
  TooMany: tooMany, BadScript: badScript,
  BadName: badName,
  Memory: () => 'There was not enough memory for this run.',
  CountLimit: () => 'A count would have passed 2^62 - 1.' };
