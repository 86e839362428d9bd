// @ts-check
// What is drawn of one queue: its messages in each place, the ages, and what left it for a bad reason.

import { drawn, element, setText, tableOf } from './dom.js';
import { duration, grouped, ticksOf } from './units.js';

/** @typedef {import('./side.js').Side} Side */
/** @typedef {import('./overtime.js').Drawn} Drawn */
/** @typedef {Float32Array | Uint32Array | number[]} Numbers */
/** @typedef {(value: number) => number} Scale */
/** @typedef {{ places: import('./seeds.js').Extent[], ages: import('./seeds.js').Extent }} Extents */
/**
 * What a run tells of a queue over time; nothing of a queue that its variant does not have.
 * @typedef {Omit<import('./overtime.js').QueueOverTime, 'name'>} Data
 */
/** @typedef {{ side: Side, data: Data, spread: Extents | undefined }} Share */
/**
 * @typedef {{ from: number, to: number, width: number, end: string, only?: string,
 *   require: import('./require.js').Requirement, point(time: number): void, zoomTo(zoom: [number, number]): void,
 *   zoomWhole(): void }} Room
 */
/** @typedef {{ kind: keyof typeof HEIGHTS, caption: string, most: number, isTime?: boolean, isLog?: boolean }} Panel */

export const LEFT = 52, RIGHT = 10, CAPTION = 16, AXIS = 22;
const HEIGHTS = { places: 110, ages: 80, counts: 48 }, SMALL_HEIGHT = 58;
// Ages are on a logarithmic axis from this ratio on of the greatest one to that in the middle.
const LOG_RATIO = 100;
/** @type {[number, string][]} */
const LOG_TICKS = [[1, '1 ms'], [10, '10 ms'], [100, '100 ms'], [1e3, '1 s'], [1e4, '10 s'], [6e4, '1 min'],
  [6e5, '10 min'], [36e5, '1 h'], [36e6, '10 h'], [864e5, '1 day'], [864e6, '10 days']];
/** @type {[string, string][]} */
const PLACES = [['visible', 'visible'], ['in-flight', 'in flight'], ['delayed', 'delayed']];
// The ages that the worker gives, in its order.
export const MIDDLE = 0, MOST_OF_THEM = 1, GREATEST = 2;
/** @type {Data} */
export const MISSING = { places: [], ages: [], redrives: new Uint32Array(), expiries: new Uint32Array(),
  oldest: { means: new Float32Array(), least: new Float32Array(), greatest: new Float32Array() } };
// A pointer that moves so few pixels drags nothing.
const DRAG_LEAST = 5;

/** @param {Numbers} numbers */
const greatestOf = numbers => {
  let most = 0;
  for (const number of numbers) most = number > most ? number : most;
  return most;
};

// A line through columns of equal width in steps, as the path of an SVG. Where nothing is known there is no line.
/** @param {ArrayLike<number>} numbers @param {Scale} x @param {Scale} y */
function steps(numbers, x, y) {
  let path = '', isOpen = false, last = NaN;
  for (let i = 0; i < numbers.length; i++) {
    if (Number.isNaN(numbers[i])) {
      isOpen = false;
    } else if (!isOpen || numbers[i] !== last) {
      const height = y(numbers[i]).toFixed(1);
      path += isOpen ? `H${x(i).toFixed(1)}V${height}` : `M${x(i).toFixed(1)},${height}`;
      isOpen = true;
      last = numbers[i];
    }
    if (isOpen && (i + 1 === numbers.length || Number.isNaN(numbers[i + 1]))) path += `H${x(i + 1).toFixed(1)}`;
  }
  return path;
}

// The extent from the least to the greatest number of each column, where they differ.
/** @param {ArrayLike<number>} least @param {ArrayLike<number>} greatest @param {Scale} x @param {Scale} y */
function bands(least, greatest, x, y) {
  let path = '';
  for (let i = 0; i < least.length; i++) {
    if (greatest[i] > least[i]) {
      path += `M${x(i).toFixed(1)},${y(least[i]).toFixed(1)}V${y(greatest[i]).toFixed(1)}H${x(i + 1).toFixed(1)}`
        + `V${y(least[i]).toFixed(1)}Z`;
    }
  }
  return path;
}

export class Figure {
  // `room` has the time and the width; in a small picture, the one part that it has, as `only`.
  /** @param {string} name @param {Share[]} shares @param {Room} room */
  constructor(name, shares, room) {
    this.name = name;
    this.shares = shares;
    this.room = room;
    /** @type {((share: number) => void)[]} */
    this.values = [];
    /** @type {SVGLineElement[]} */
    this.lines = [];
    const pictures = shares.map(share => element('div', { className: 'picture' },
      shares.length > 1 ? element('p', { className: 'variant-name', textContent: share.side.name }) : null,
      this.picture(share)));
    const title = element('h4', { textContent: name });
    this.box = this.isEmpty ? element('figure', {}, title, element('p', { className: 'note',
      textContent: 'No message is here in this time.' }))
      : element('figure', {}, element('figcaption', {}, title, this.legend()),
        element('div', { className: 'pictures' }, ...pictures), this.asTable());
  }

  // Whether no variant has a message here in the time that is drawn.
  get isEmpty() {
    return this.shares.every(({ data }) => data.places.every(place => greatestOf(place.greatest) === 0));
  }

  get isLog() {
    const all = this.shares.flatMap(({ data }) => [...data.ages[0] ?? []]).filter(age => age >= 0);
    all.sort((a, b) => a - b);
    const most = greatestOf(this.shares.map(({ data }) => greatestOf(data.ages[GREATEST] ?? [])));
    return all.length > 0 && most > LOG_RATIO * Math.max(1, all[Math.floor(all.length / 2)]);
  }

  // The parts of the picture: those that have something to show in any variant.
  /** @returns {Panel[]} */
  panels() {
    const most = (/** @type {(data: Data) => number} */ of) => greatestOf(this.shares.map(({ data }) => of(data)));
    const spread = (/** @type {(extents: Extents) => number} */ of) =>
      greatestOf(this.shares.map(it => it.spread ? of(it.spread) : 0));
    const places = Math.max(most(data => greatestOf(data.places.map(place => greatestOf(place.greatest)))),
      spread(it => greatestOf(it.places.map(({ greatest }) => greatestOf(greatest)))));
    const ages = Math.max(spread(it => greatestOf(it.ages.greatest)), most(data =>
      Math.max(greatestOf(data.ages[GREATEST] ?? []), greatestOf(data.oldest?.greatest ?? []))));
    const counts = most(({ redrives, expiries }) => greatestOf([...redrives, ...expiries]));
    /** @type {Panel[]} */
    const panels = [{ kind: 'places', caption: 'messages', most: Math.max(1, places) }];
    if (ages > 0) panels.push({ kind: 'ages', caption: 'age', most: ages, isTime: true, isLog: this.isLog });
    for (const panel of panels) panel.most = Math.max(panel.most, this.required(panel.kind)?.most ?? 0);
    // a small picture has one part
    if (this.room.only) return [panels.find(({ kind }) => kind === this.room.only) ?? panels[0]];
    if (counts) panels.push({ kind: 'counts', caption: 'redriven and expired', most: counts });
    return panels;
  }

  /** @param {Share} share */
  picture(share) {
    const { data, side } = share;
    const { width, from, to } = this.room, parts = [];
    let top = 0;
    for (const panel of this.panels()) {
      parts.push(...this.panel(panel, share, top + CAPTION));
      top += CAPTION + this.heightOf(panel);
    }
    const { ticks, unit } = ticksOf(from, to, Math.max(2, Math.floor(width / 90)), true);
    const x = this.xOf(to - from, from);
    for (const { at, text } of ticks) {
      parts.push(drawn('line', { class: 'tick', x1: x(at), x2: x(at), y1: top, y2: top + 4 }),
        drawn('text', { class: 'tick-text', x: x(at), y: top + 16, 'text-anchor': 'middle' }, text));
    }
    parts.push(drawn('text', { class: 'tick-text', x: 2, y: top + 16 }, unit));
    const line = drawn('line', { class: 'moment', x1: LEFT, x2: LEFT, y1: 0, y2: top });
    this.lines.push(line);
    if (this.room.end) {
      const place = { class: 'end', x: width - RIGHT, y: CAPTION - 4, 'text-anchor': 'end' };
      parts.push(drawn('text', place, this.room.end));
    }
    const picture = drawn('svg', { width, height: top + AXIS, viewBox: `0 0 ${width} ${top + AXIS}`, role: 'img',
      'aria-label': this.descriptionOf(data, side) }, ...parts, line);
    this.follow(picture, top);
    return picture;
  }

  // A pointer shows its moment, a drag zooms into its time, and two clicks show all.
  /** @param {SVGSVGElement} picture @param {number} height */
  follow(picture, height) {
    const { from, to, width, point, zoomTo, zoomWhole } = this.room;
    const timeAt = (/** @type {PointerEvent} */ { clientX }) => from + (to - from) * Math.min(1, Math.max(0,
      (clientX - picture.getBoundingClientRect().left - LEFT) / (width - LEFT - RIGHT)));
    picture.addEventListener('pointermove', event => { if (event.pointerType !== 'touch') point(timeAt(event)); });
    picture.addEventListener('dblclick', zoomWhole);
    picture.addEventListener('pointerdown', down => {
      point(timeAt(down));
      const begun = timeAt(down), ends = new AbortController(), x = this.xOf(to - from, from);
      const area = drawn('rect', { class: 'dragged', y: 0, height, width: 0 });
      const isDrag = (/** @type {PointerEvent} */ event) => Math.abs(event.clientX - down.clientX) >= DRAG_LEAST;
      picture.append(area);
      document.addEventListener('pointermove', event => {
        const [low, high] = [begun, timeAt(event)].sort((a, b) => a - b);
        area.setAttribute('x', String(x(low)));
        area.setAttribute('width', String(isDrag(event) ? x(high) - x(low) : 0));
      }, { signal: ends.signal });
      const end = (/** @type {PointerEvent} */ event) => {
        ends.abort();
        area.remove();
        const at = timeAt(event);
        if (event.type === 'pointerup' && isDrag(event)) zoomTo([Math.min(begun, at), Math.max(begun, at)]);
      };
      document.addEventListener('pointerup', end, { signal: ends.signal });
      document.addEventListener('pointercancel', end, { signal: ends.signal });
    });
  }

  /** @param {Panel} panel */
  heightOf({ kind }) {
    return this.room.only ? SMALL_HEIGHT : HEIGHTS[kind];
  }

  /** @param {number} span @param {number} start @returns {Scale} */
  xOf(span, start = 0) {
    return value => LEFT + (this.room.width - LEFT - RIGHT) * (value - start) / span;
  }

  // The line of the requirement in a panel, of the variant that is shown last; null if there is none.
  /** @param {string} kind */
  required(kind) {
    const { outcome } = this.shares[this.shares.length - 1].side;
    return this.room.require.lineIn(kind, outcome.values.find(({ queue }) => queue === this.name));
  }

  /** @param {{ most: number, isBroken: boolean, text: string }} line @param {Scale} y @param {number} top */
  lineOf({ most, isBroken, text }, y, top) {
    const { width } = this.room, className = isBroken ? 'broken' : '';
    const line = drawn('line', { class: `required ${className}`, x1: LEFT, x2: width - RIGHT, y1: y(most), y2: y(most) });
    if (!this.room.only) return [line, drawn('text', { class: className, x: LEFT + 4, y: y(most) - 3 }, text)];
    // in a small picture it stands beside the caption, and that of two variants has no room for it
    if (this.shares.length > 1) return [line];
    return [line, drawn('text', { class: className, x: width - RIGHT - 4, y: top - 4, 'text-anchor': 'end' }, text)];
  }

  // What stands above a panel; that of a small picture names the queue, or one of two variants.
  /** @param {Panel} panel @param {Side} side */
  captionOf({ caption }, { name }) {
    if (!this.room.only) return caption;
    return this.shares.length > 1 ? `${name}: ${this.name}` : `${caption} in ${this.name}`;
  }

  /** @param {Panel} panel @param {Share} share @param {number} top */
  panel(panel, { data, spread, side }, top) {
    const { width } = this.room, height = this.heightOf(panel), y = this.heights(panel, top, height);
    /** @type {SVGElement[]} */
    const parts = [drawn('text', { class: 'caption', x: LEFT, y: top - 4 }, this.captionOf(panel, side))];
    const required = this.required(panel.kind);
    if (required) parts.push(...this.lineOf(required, y, top));
    const { ticks, unit } = panel.isLog ? { unit: '', ticks: LOG_TICKS.filter(([at]) => at <= panel.most)
      .map(([at, text]) => ({ at, text })) } : ticksOf(0, panel.most, 3, panel.isTime);
    const list = ticks.map(({ at, text }) => ({ at, text: unit && at ? `${text} ${unit}` : text }));
    for (const { at, text } of list.filter((_, i) => list.length < 5 || (list.length - 1 - i) % 2 === 0)) {
      parts.push(drawn('line', { class: 'grid', x1: LEFT, x2: width - RIGHT, y1: y(at), y2: y(at) }),
        drawn('text', { class: 'tick-text', x: LEFT - 5, y: y(at) + 4, 'text-anchor': 'end' }, text));
    }
    if (!data.places.length) return [...parts, this.absent(top + height / 2)];
    const inside = { places: () => this.places(data, spread, y), ages: () => this.ages(data, spread, y),
      counts: () => this.counts(data, y) };
    return [...parts, ...inside[panel.kind]()];
  }

  /** @param {number} y */
  absent(y) {
    return drawn('text', { class: 'caption', x: LEFT + 20, y }, 'this variant has no such queue');
  }

  /** @param {Panel} panel @param {number} top @param {number} height @returns {Scale} */
  heights({ most, isLog }, top, height) {
    const low = 1, bottom = top + height - 4, full = height - 8;
    return isLog ? value => bottom - full * Math.log(Math.max(low, value)) / Math.log(Math.max(10, most))
      : value => bottom - full * value / most;
  }

  /** @param {Data} data @param {Extents | undefined} spread @param {Scale} y */
  places(data, spread, y) {
    const x = this.xOf(data.places[0].means.length);
    return PLACES.flatMap(([kind], i) => {
      const { means, least, greatest } = data.places[i];
      // what stays at zero is not drawn, so that lines on one another do not mix there
      const line = means.map((mean, at) => greatest[at] ? mean : NaN);
      return [this.spreadOf(spread?.places[i], kind, y),
        drawn('path', { class: `band ${kind}`, d: bands(least, greatest, x, y) }),
        drawn('path', { class: `line ${kind}`, d: steps(line, x, y) })];
    }).reverse();
  }

  // The extent over seeds, which is of the whole run and is drawn where it is in view.
  /** @param {import('./seeds.js').Extent | undefined} extent @param {string} kind @param {Scale} y */
  spreadOf(extent, kind, y) {
    if (!extent) return '';
    const { from, to } = this.room, x = this.xOf(to - from, from), { least, greatest } = extent;
    const low = extent.from, width = (extent.to - low) / least.length;
    const inView = Array.from(least, (_, i) => low + (i + 1) * width > from && low + i * width < to);
    const at = (/** @type {number} */ i) => x(Math.min(to, Math.max(from, low + i * width)));
    const seen = least.map((it, i) => inView[i] ? it : NaN);
    return drawn('path', { class: `spread ${kind}`, d: bands(seen, greatest, at, y) });
  }

  // The ages of messages that were deleted, as a band from the middle to the greatest with 95 % as a line, and the age
  // of the oldest one.
  /** @param {Data} data @param {Extents | undefined} spread @param {Scale} y */
  ages(data, spread, y) {
    const x = this.xOf(data.ages[0].length), fine = this.xOf(data.oldest.means.length), { means } = data.oldest;
    return [this.spreadOf(spread?.ages, 'age', y), drawn('path', { class: 'line oldest', d: steps(means, fine, y) }),
      drawn('path', { class: 'band age', d: bands(data.ages[MIDDLE], data.ages[GREATEST], x, y) }),
      drawn('path', { class: 'line age', d: steps(data.ages[MOST_OF_THEM], x, y) })];
  }

  /** @param {Data} data @param {Scale} y */
  counts(data, y) {
    const x = this.xOf(data.redrives.length), parts = [], zero = y(0);
    /** @type {(kind: string, i: number, from: number, to: number) => void} */
    const bar = (kind, i, from, to) => {
      if (to > from) {
        parts.push(drawn('rect', { class: `bar ${kind}`, x: x(i).toFixed(1), y: y(to).toFixed(1),
          width: Math.max(1.5, x(1) - x(0) - 1).toFixed(1), height: (y(from) - y(to)).toFixed(1) }));
      }
    };
    data.redrives.forEach((count, i) => bar('redriven', i, 0, count));
    data.expiries.forEach((count, i) => bar('expired', i, 0, count));
    parts.push(drawn('line', { class: 'grid', x1: LEFT, x2: this.room.width - RIGHT, y1: zero, y2: zero }));
    return parts;
  }

  // The colours with what there is at the moment that is pointed at, one entry for each line that is drawn.
  legend() {
    const kinds = this.panels().map(({ kind }) => kind);
    /** @type {HTMLElement[]} */
    const groups = [];
    const group = (/** @type {string} */ title, /** @type {(Node | null)[]} */ entries) =>
      groups.push(element('div', {}, element('span', { textContent: `${title}: ` }), ...entries));
    const isThere = (/** @type {number} */ i) => !i
      || this.shares.some(({ data }) => greatestOf(data.places[i]?.greatest ?? []) > 0);
    group('messages', PLACES.map(([kind, text], i) => !isThere(i) ? null
      : this.entry(kind, text, (data, share) => this.numberAt(data.places[i], share))));
    if (kinds.includes('ages')) {
      group('age when deleted', [this.entry('age', '95 %', ({ ages }, share) => this.lastAge(ages[MOST_OF_THEM], share)),
        this.entry('age-band', 'middle to greatest', ({ ages }, share) => [MIDDLE, GREATEST].map(which =>
          this.lastAge(ages[which], share)).join(' to ').replace('- to -', '-')),
        this.entry('oldest', 'of the oldest', ({ oldest }, share) => this.ageAt(oldest.means, share))]);
    }
    if (kinds.includes('counts')) {
      group('left', [this.entry('redriven', 'redriven', ({ redrives }, share) => grouped(this.itemAt(redrives, share))),
        this.entry('expired', 'expired', ({ expiries }, share) => grouped(this.itemAt(expiries, share)))]);
    }
    return element('div', { className: 'legend' }, ...groups);
  }

  // An entry of the legend, with what `tellAt` says of each variant at the moment that is pointed at.
  /** @param {string} kind @param {string} text @param {(data: Data, share: number) => string} tellAt */
  entry(kind, text, tellAt) {
    const value = element('span', { className: 'value' });
    this.values.push(share => {
      setText(value, this.shares.map(({ data }) => data.places.length ? tellAt(data, share) : '-').join(' | '));
    });
    return element('span', { className: `entry ${kind}` }, element('span', { className: 'swatch' }), `${text} `, value);
  }

  /** @param {ArrayLike<number>} numbers @param {number} share */
  itemAt(numbers, share) {
    return numbers[Math.max(0, Math.min(numbers.length - 1, Math.floor(share * numbers.length)))];
  }

  /** @param {Drawn} drawn @param {number} share */
  numberAt({ least, greatest }, share) {
    const [low, high] = [this.itemAt(least, share), this.itemAt(greatest, share)];
    return low === high ? grouped(high) : `${grouped(low)} to ${grouped(high)}`;
  }

  /** @param {ArrayLike<number>} ages @param {number} share */
  ageAt(ages, share) {
    const age = this.itemAt(ages, share);
    return age >= 0 ? duration(Math.round(age)) : '-';
  }

  /** @param {number} share */
  point(share) {
    const x = LEFT + (this.room.width - LEFT - RIGHT) * share;
    for (const line of this.lines) {
      line.setAttribute('x1', String(x));
      line.setAttribute('x2', String(x));
    }
    for (const show of this.values) show(share);
  }

  // The age of those that were deleted last by a moment.
  /** @param {ArrayLike<number>} ages @param {number} share */
  lastAge(ages, share) {
    for (let i = Math.min(ages.length - 1, Math.floor(share * ages.length)); i >= 0; i--) {
      if (ages[i] >= 0) return duration(Math.round(ages[i]));
    }
    return '-';
  }

  // The numbers of a moment in words.
  /** @param {number} share */
  wordsAt(share) {
    const sides = this.shares.filter(({ data }) => data.places.length).map(({ side, data }) =>
      (this.shares.length > 1 ? `${side.name} ` : '')
      + PLACES.map(([, text], i) => `${this.numberAt(data.places[i], share)} ${text}`).join(', '));
    return `${this.name} ${sides.join('; ')}`;
  }

  /** @param {Data} data @param {Side} side */
  descriptionOf(data, side) {
    if (!data.places.length) return `${this.name}: variant ${side.name} has no such queue`;
    const most = PLACES.map(([, text], i) => `at most ${grouped(greatestOf(data.places[i].greatest))} ${text}`);
    return `${this.name}${this.shares.length > 1 ? `, variant ${side.name}` : ''} from ${duration(this.room.from)} to `
      + `${duration(this.room.to)}: ${most.join(', ')}`;
  }

  // The same in a table, which is made as it is opened.
  asTable() {
    const box = element('details', {}, element('summary', { textContent: `${this.name} as a table` }));
    box.ontoggle = () => {
      if (!box.open || box.children.length > 1) return;
      for (const { side, data } of this.shares.filter(it => it.data.places.length)) {
        const rows = Array.from({ length: 13 }, (_, i) => i / 12).map(share => ({ cells: [
          duration(Math.round(this.room.from + (this.room.to - this.room.from) * share)),
          ...data.places.map(place => this.numberAt(place, share)), this.ageAt(data.oldest.means, share)] }));
        const titles = ['at', ...PLACES.map(([, text]) => text), 'age of the oldest'];
        box.append(element('div', { className: 'scrolls', tabIndex: 0, role: 'region', 'aria-label': 'table' },
          tableOf(`${this.name}, variant ${side.name}`, titles, rows)));
      }
    };
    return box;
  }
}
