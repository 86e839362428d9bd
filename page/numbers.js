// @ts-check
// A slider and a field for each number of the scenario. Numbers are in words, as 400 ms, 10 min and 5 %. A slider goes
// over all that its key may have, in round steps.

import { byId, element } from './dom.js';
import { KEYS } from './facts.js';
import { mayBeNumber, rangeText, versionOf } from './faults.js';
import { said } from './scenario.js';
import { grouped, momentOf } from './units.js';

/** @typedef {import('./facts.js').Key} Key */
/** @typedef {import('./scenario.js').Item} Item */
/** @typedef {import('./scenario.js').Scenario} Scenario */
/** @typedef {{ place: string, of: string, name: unknown, title: string, key: Key, node: Item }} Found */

const NUMBERS_MOST = 80;
// The values of a slider that are tried lie within so many of its stops.
const NEAR_STOPS = 13;
// Longer ranges than this are gone through in round numbers, and not one by one.
const ONE_BY_ONE = 60;
// So many groups of numbers are open at first, where no question says which numbers matter first.
const OPEN_FIRST = 3;
// The milliseconds of each unit of a time, with the round numbers of it.
/** @type {[number, number[]][]} */
const TIME_STEPS = [[1, []], [1e3, [1, 1.5, 2, 2.5, 3, 4, 5, 6, 8, 10, 12, 15, 20, 25, 30, 40, 45, 50]],
  [6e4, [1, 1.5, 2, 2.5, 3, 4, 5, 6, 8, 10, 12, 15, 20, 25, 30, 40, 45, 50]],
  [36e5, [1, 1.5, 2, 3, 4, 5, 6, 8, 10, 12, 16, 20]], [864e5, [1, 1.5, 2, 3, 4, 5, 6, 7, 10, 14, 21, 30]]];
const ROUND = [1, 1.2, 1.5, 2, 2.5, 3, 4, 5, 6, 8];
/** @type {[number, string][]} */
const TIME_NAMES = [[864e5, 'days'], [36e5, 'h'], [6e4, 'min'], [1e3, 's']];

// The milliseconds of 1 in a number of a key; 0 of one that is no time.
/** @param {string} name */
const unitOf = name => name === 'horizon' || name === 'sample' || name.endsWith('_ms') ? 1
  : name.endsWith('_s') ? 1000 : 0;

// A number of a key in words, with nothing left out.
/** @param {string} name @param {number} value */
export function written(name, value) {
  if (name.endsWith('_permille')) return `${value / 10} %`;
  const time = value * unitOf(name);
  if (!unitOf(name)) return grouped(value);
  const found = TIME_NAMES.find(([size]) => time >= size && (time % size === 0 || size === 1e3 && time % 10 === 0));
  if (!found) return name.endsWith('_s') ? `${grouped(value)} s` : `${grouped(value)} ms`;
  const [size, unit] = found;
  return `${grouped(time / size)} ${time === 864e5 ? 'day' : unit}`;
}

// The number of a key that a text means, as 10 min, 1.5s, 5 %, or without a unit in that of the key; NaN if none.
/** @param {string} name @param {string} text */
export function meant(name, text) {
  const plain = text.replaceAll(',', '').trim(), isShare = name.endsWith('_permille');
  if (/^\d{1,16}$/.test(plain)) return Number(plain) * (isShare ? 10 : 1);
  if (isShare) return /^\d{1,3}(\.\d)? ?%?$/.test(plain) ? Math.round(parseFloat(plain) * 10) : NaN;
  const time = unitOf(name) ? momentOf(plain.replace(/ ?days?$/, 'd')) : null;
  return time === null || time % unitOf(name) ? NaN : time / unitOf(name);
}

// The numbers on which a slider for a key stops: those of its range that are round.
/** @param {Key} key */
export function stopsOf(key) {
  const unit = unitOf(key.name), low = key.low ?? 0, high = Math.min(key.high ?? 0, 2 ** 53);
  if (high - low <= ONE_BY_ONE) return Array.from({ length: high - low + 1 }, (_, i) => low + i);
  const stops = [low, ...Array.from({ length: 10 }, (_, i) => i + 1)];
  for (let power = 10; power <= (unit ? 100 : high); power *= 10) stops.push(...ROUND.map(digit => digit * power));
  if (unit) for (const [size, steps] of TIME_STEPS) stops.push(...steps.map(step => step * size / unit));
  // past a minute, seconds are whole minutes
  const isRound = (/** @type {number} */ stop) => unit !== 1000 || stop <= 50 || stop % 60 === 0;
  const isStop = (/** @type {number} */ stop) => Number.isInteger(stop) && stop >= low && stop <= high && isRound(stop);
  return ascending([...stops.filter(isStop), high]);
}

/** @param {number[]} numbers */
const ascending = numbers => [...new Set(numbers)].sort((a, b) => a - b);

// Whether a path, as `actor.mailer-*.wait_s` of the command line of `sweep`, names a number of a table.
/** @param {string} path @param {string} of @param {unknown} name @param {string} key */
export function isNamed(path, of, name, key) {
  const [, ofPath, glob, last] = /^([a-z]+)\.(.+)\.([a-z_]+)$/.exec(path) ?? [];
  if (ofPath !== of || last !== key) return false;
  const pattern = glob.split('*').map(part => part.replace(/[^\w-]/g, '\\$&')).join('.*');
  return new RegExp(`^${pattern}$`).test(String(name));
}

export class NumberPanel {
  // `changed` is called with the places in the text of the numbers that a slider has, and their new value, and `tried`
  // with the slider whose numbers are to be tried one after the other.
  /** @param {(places: string[], value: number) => void} changed @param {(slider: Slider) => void} tried */
  constructor(changed, tried) {
    this.changed = changed;
    this.tried = tried;
    this.box = byId('numbers');
    this.first = byId('first-numbers');
    /** @type {Slider[]} */
    this.sliders = [];
    this.shape = '';
    /** @type {string[]} */
    this.paths = [];
    /** @type {Map<string, boolean>} */
    this.isOpen = new Map();
  }

  // The numbers that the question is about, by their paths. They stand before all others.
  /** @param {string[]} paths */
  ask(paths) {
    this.paths = paths;
    this.shape = '';
    this.isOpen.clear();
  }

  // Shows the numbers of a text. If it is no TOML for now, those before stay.
  /** @param {Scenario} scenario @param {boolean} isFresh */
  show(scenario, isFresh) {
    if (scenario.lost !== null) return;
    const all = this.numbersIn(scenario), numbers = all.slice(0, NUMBERS_MOST);
    const shape = JSON.stringify(numbers.map(({ place, title }) => [place, title]));
    if (isFresh || shape !== this.shape) this.build(numbers, all.length);
    this.shape = shape;
    const values = new Map(numbers.map(({ place, node }) => [place, Number(node.value)]));
    for (const slider of this.sliders) slider.take(values.get(slider.places[0]));
  }

  // Shows none, as of a text that is long.
  clear() {
    this.build([], 0);
    this.shape = '';
  }

  /** @param {Scenario} scenario */
  numbersIn(scenario) {
    /** @type {Found[]} */
    const found = [], version = versionOf(scenario);
    /** @type {(table: Item, prefix: string, of: string, title: string) => void} */
    const look = (table, prefix, of, title) => {
      const kind = of === 'actor' ? said(table, 'kind') : '';
      for (const key of KEYS[`${of}/${kind}/${version}`] ?? []) {
        const node = table.value.get(key.name);
        const is = mayBeNumber(key) && node?.type === 'integer' && key.name !== 'version';
        if (is && node.value >= 0n && node.value <= 2n ** 53n) {
          found.push({ place: prefix + key.name, of, name: said(table, 'name'), title, key, node });
        }
      }
    };
    for (const of of ['queue', 'actor', 'task']) {
      scenario.items(of).forEach((item, i) => {
        const kind = of === 'actor' ? said(item, 'kind') : of;
        if (item.type === 'table') look(item, `${of}[${i}].`, of, `${kind} ${said(item, 'name') ?? i + 1}`);
      });
    }
    look(scenario.top, '', '', 'run');
    return found;
  }

  /** @param {Found[]} numbers @param {number} count */
  build(numbers, count) {
    const first = this.firstOf(numbers);
    /** @type {Map<string, Slider[]>} */
    const groups = new Map();
    for (const number of numbers) {
      if (first.some(({ places }) => places.length === 1 && places[0] === number.place)) continue;
      groups.set(number.title, [...groups.get(number.title) ?? [], this.sliderOf([number])]);
    }
    this.sliders = [...first, ...[...groups.values()].flat()];
    this.first.replaceChildren(...first.map(slider => slider.box));
    const more = count > numbers.length ? [element('p', { className: 'note', textContent:
      `The first ${numbers.length} of ${grouped(count)} numbers have a slider; change the others in the text.` })] : [];
    this.box.replaceChildren(...[...groups].map(([title, sliders], i) =>
      this.groupOf(title, sliders, !first.length && i < OPEN_FIRST)), ...more);
  }

  // The sliders that the question is about. A path that names nothing more than those before it has none.
  /** @param {Found[]} numbers */
  firstOf(numbers) {
    const taken = new Set();
    /** @type {Slider[]} */
    const sliders = [];
    for (const path of this.paths) {
      const all = numbers.filter(({ of, name, key }) => isNamed(path, of, name, key.name));
      if (all.some(({ place }) => !taken.has(place))) sliders.push(this.sliderOf(all, path));
      for (const { place } of all) taken.add(place);
    }
    return sliders;
  }

  // The sliders of one table, under its name, which opens and closes them.
  /** @param {string} title @param {Slider[]} sliders @param {boolean} isOpen */
  groupOf(title, sliders, isOpen) {
    const group = element('details', { className: 'group', open: this.isOpen.get(title) ?? isOpen },
      element('summary', { textContent: title }), ...sliders.map(slider => slider.box));
    group.ontoggle = () => this.isOpen.set(title, group.open);
    return group;
  }

  // Opens the sliders of the first of some tables that has any, and goes to them; with none, goes to one that stands
  // before all groups.
  /** @param {string} kind @param {string[]} names */
  open(kind, names) {
    const titles = names.map(name => `${kind} ${name}`), groups = [...this.box.querySelectorAll('details')];
    const group = groups.find(it => titles.includes(it.firstChild?.textContent ?? ''));
    if (group) group.open = true;
    const slider = this.sliders.find(({ tables }) => tables.some(title => titles.includes(title)));
    const to = group ? group.querySelector('summary') : slider?.range;
    to?.focus({ preventScroll: true });
    to?.scrollIntoView({ block: 'nearest' });
  }

  /** @param {Found[]} numbers @param {string} [path] */
  sliderOf(numbers, path) {
    const places = numbers.map(({ place }) => place), { key, title, name } = numbers[0];
    const of = !path ? '' : places.length > 1 ? path.split('.').slice(1, -1).join('.') : String(name);
    const tables = numbers.map(it => it.title);
    return new Slider(key, places, tables, of, of || title, value => this.changed(places, value), this.tried);
  }
}

// A slider with its field, for one number or for several that are to be the same.
export class Slider {
  /** @param {Key} key @param {string[]} places @param {string[]} tables @param {string} of @param {string} title
   * @param {(value: number) => void} changed @param {(slider: Slider) => void} tried */
  constructor(key, places, tables, of, title, changed, tried) {
    this.key = key;
    this.places = places;
    this.tables = tables;
    this.of = of;
    this.title = title;
    this.changed = changed;
    this.value = 0;
    this.base = this.stops = stopsOf(key);
    const about = `${key.about}${rangeText(key)}`, id = `number-${of}-${places[0]}`;
    this.range = element('input', { type: 'range', min: 0, step: 1, id, title: about,
      'aria-label': `${key.name} of ${title}`, oninput: () => this.slid() });
    this.field = element('input', { type: 'text', className: 'value', title: about, autocomplete: 'off',
      spellcheck: false, 'aria-label': `${key.name} of ${title}, as a number`, oninput: () => this.typed(),
      onchange: () => this.show() });
    const label = element('label', { for: id, title: about }, element('code', { textContent: key.name }),
      // a hyphen before a star is no place to break the line
      of ? ` of ${of.replaceAll('-*', '-\u2060*')}` : '',
      key.since > 2 ? element('span', { className: 'mark', textContent: 'version 3' }) : '');
    const curve = element('button', { type: 'button', className: 'try', textContent: 'try 10',
      onclick: () => tried(this), title: 'Try 10 values of this number, and draw what comes out',
      'aria-label': `Try 10 values of ${key.name} of ${title}` });
    const high = key.high ?? 0;
    const ends = [written(key.name, key.low ?? 0), high > 2 ** 53 ? '…' : written(key.name, high)];
    const [least, greatest] = ends.map(textContent => element('span', { textContent }));
    this.box = element('div', { className: 'number-row' }, label, this.field, curve,
      element('div', { className: 'reach' }, least, this.range, greatest));
  }

  slid() {
    this.value = this.stops[Number(this.range.value)];
    this.show();
    this.changed(this.value);
  }

  typed() {
    const value = meant(this.key.name, this.field.value), { low, high } = this.key;
    const isRight = Number.isInteger(value) && value >= (low ?? 0) && value <= (high ?? 0);
    this.field.setAttribute('aria-invalid', String(!isRight));
    if (!isRight || value === this.value) return;
    this.value = value;
    this.place();
    this.changed(value);
  }

  // Takes a value as if it had been slid to.
  /** @param {number} value */
  choose(value) {
    this.value = value;
    this.place();
    this.show();
    this.changed(value);
  }

  // Takes the number of the text.
  /** @param {number | undefined} value */
  take(value) {
    if (value === undefined || value === this.value) return;
    this.value = value;
    this.place();
    if (document.activeElement !== this.field) this.show();
  }

  // Puts the slider where its number is. A number that is not round is a stop as long as it is there.
  place() {
    this.stops = this.base.includes(this.value) ? this.base : ascending([...this.base, this.value]);
    this.range.max = String(this.stops.length - 1);
    this.range.value = String(this.stops.indexOf(this.value));
    this.range.setAttribute('aria-valuetext', written(this.key.name, this.value));
  }

  show() {
    const text = written(this.key.name, this.value);
    this.field.value = text;
    this.field.setAttribute('aria-invalid', 'false');
    this.range.setAttribute('aria-valuetext', text);
  }

  // Ten of its stops around its number, which is one of them.
  tenValues() {
    const at = this.stops.indexOf(this.value), span = Math.min(this.stops.length - 1, NEAR_STOPS);
    const from = Math.max(0, Math.min(at - Math.floor(span / 2), this.stops.length - 1 - span));
    const values = Array.from({ length: 10 }, (_, i) => this.stops[from + Math.round(i * span / 9)]);
    return ascending([...values.filter(value => value !== this.value).slice(0, 10), this.value]);
  }
}
