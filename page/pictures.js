// @ts-check
// The pictures over time: a figure for each queue, with a picture for each variant beside it on the same axes. It asks
// the worker's overtime.js for what figure.js draws.

import { greatestBy, mainQueues } from './answer.js';
import { byId, inputById, setText } from './dom.js';
import { Figure, LEFT, MISSING, RIGHT } from './figure.js';
import { clock, duration, grouped } from './units.js';

/** @typedef {import('./side.js').Side} Side */

const QUEUES_MOST = 12;
// What is at the end without a change is cut, if it is more than this part of the run.
const IDLE_LEAST = 0.2;
// The spread over seeds is drawn in so many columns over the whole run, and of ages in so many.
const SPREAD_COLUMNS = 400, SPREAD_BINS = 80;

export class Pictures {
  // `require` is the requirement, which is a line in the pictures, and `network` is shown at the same moment.
  /** @param {import('./require.js').Requirement} require @param {import('./network_view.js').NetworkView} network */
  constructor(require, network) {
    this.require = require;
    this.network = network;
    this.isPlayed = false;
    /** @type {Side[]} */
    this.sides = [];
    this.whole = this.end = 1;
    this.moved = 0;
    this.box = byId('pictures');
    this.slider = inputById('moment');
    /** @type {[number, number] | null} */
    this.zoom = null;
    /** @type {Figure[]} */
    this.figures = [];
    // the moment is the end of what is shown until the reader chooses another one
    this.moment = 0;
    this.isAtEnd = true;
    this.asked = 0;
    this.slider.oninput = () => this.point(this.from + (this.to - this.from) * Number(this.slider.value) / 1000);
    byId('zoom-in').onclick = () => this.zoomBy(1 / 4);
    byId('zoom-out').onclick = () => this.zoomBy(4);
    byId('zoom-whole').onclick = () => this.zoomWhole();
    this.width = 0;
    new ResizeObserver(([{ contentRect }]) => {
      const isOther = Math.abs(contentRect.width - this.width) > 4;
      if (contentRect.width) this.width = contentRect.width;
      if (isOther && this.sides.length) this.draw();
    }).observe(this.box);
  }

  // Shows the runs of some variants, with the spread of each over seeds, if there is one.
  /** @param {Side[]} sides */
  show(sides) {
    this.sides = sides;
    this.whole = Math.max(1, ...sides.map(({ outcome }) => outcome.last ?? 1));
    this.moved = Math.max(...sides.map(({ outcome }) => outcome.moved));
    const soon = this.moved + Math.floor(this.moved / 20) + 1;
    this.end = this.moved && soon < this.whole * (1 - IDLE_LEAST) ? soon : this.whole;
    if (this.zoom && this.zoom[0] >= this.whole) this.zoom = null;
    return this.draw();
  }

  // What the worker is asked for of the spread over seeds.
  get spreadQuestion() {
    return { names: this.chosen(), from: 0, to: this.whole, columns: SPREAD_COLUMNS, bins: SPREAD_BINS };
  }

  // What is said of the end that is cut; '' if it is not.
  get toldOfEnd() {
    return this.to < this.whole && this.to === this.end && !this.zoom
      ? `nothing moves from ${duration(this.moved)} to ${duration(this.whole)}` : '';
  }

  get from() {
    return this.zoom ? this.zoom[0] : 0;
  }

  get to() {
    return this.zoom ? this.zoom[1] : this.end;
  }

  /** @param {number} factor */
  zoomBy(factor) {
    const width = (this.to - this.from) * factor;
    if (width >= this.end) return this.zoomTo(null);
    const from = Math.max(0, Math.round(Math.min(this.moment - width / 2, this.end - width)));
    return this.zoomTo([from, from + width]);
  }

  // Shows the whole run, with what is cut at its end.
  zoomWhole() {
    return this.zoomTo(this.end < this.whole ? [0, this.whole] : null);
  }

  // Shows the time from a moment to another, at least 20 ms; null is all but what is cut.
  /** @param {[number, number] | null} zoom */
  zoomTo(zoom) {
    this.zoom = zoom && [Math.round(zoom[0]), Math.max(Math.round(zoom[0]) + 20, Math.round(zoom[1]))];
    return this.draw();
  }

  // The queues to draw: the busiest, in the order of the scenario.
  chosen() {
    /** @type {Map<string, number>} */
    const weights = new Map();
    for (const { outcome } of this.sides) {
      outcome.values.forEach(({ queue }, i) =>
        weights.set(queue, Math.max(weights.get(queue) ?? 0, outcome.changes[i])));
    }
    const names = [...weights.keys()], least = [...weights.values()].sort((a, b) => b - a)[QUEUES_MOST - 1] ?? 0;
    const chosen = names.filter(name => (weights.get(name) ?? 0) >= least).slice(0, QUEUES_MOST);
    setText(byId('pictures-note'), names.length > chosen.length
      ? `The ${chosen.length} busiest of ${grouped(names.length)} queues are drawn.` : '');
    return chosen;
  }

  async draw() {
    const asked = ++this.asked, names = this.chosen(), { from, to } = this;
    this.width ||= this.box.clientWidth;
    const isWide = this.sides.length === 2 && this.width >= 640;
    const width = Math.max(240, Math.floor((this.width - 2 - (isWide ? 16 : 0)) / (isWide ? 2 : 1)));
    const columns = width - LEFT - RIGHT, question = { names, from, to, columns, bins: Math.ceil(columns / 8) };
    const drawn = await Promise.all(this.sides.map(side => side.over(question)));
    if (asked !== this.asked) return;
    /** @type {import('./figure.js').Room} */
    const room = { from, to, width, require: this.require, end: this.toldOfEnd, 
      point: time => { if (!this.isPlayed) this.point(time); },
      zoomTo: zoom => this.zoomTo(zoom), zoomWhole: () => this.zoomWhole() };
    const sharesOf = (/** @type {string} */ name) => this.sides.map((side, i) => ({ side,
      spread: side.spread?.queues.get(name), data: drawn[i].find(it => it.name === name) ?? MISSING }));
    this.figures = names.map(name => new Figure(name, sharesOf(name), room));
    this.box.replaceChildren(...this.figures.map(figure => figure.box));
    this.glance(names, sharesOf, room);
    this.point(this.isAtEnd ? to : Math.min(Math.max(this.moment, from), to));
    await this.network.show(this.sides, from, to);
  }

  // Draws one queue small, for narrow screens, where it stays in view above the sliders: that with the greatest
  // backlog, of each variant.
  /** @param {string[]} names @param {(name: string) => import('./figure.js').Share[]} sharesOf
   * @param {import('./figure.js').Room} room */
  glance(names, sharesOf, room) {
    const { outcome } = this.sides[this.sides.length - 1], only = this.require.panel ?? 'places';
    const deepest = greatestBy(mainQueues(outcome).filter(({ queue }) => names.includes(queue)), 'depth_greatest');
    const width = Math.floor(Math.min(room.width, (this.width - 8) / this.sides.length));
    const figure = deepest && new Figure(deepest.queue, sharesOf(deepest.queue), { ...room, width, only, end: '' });
    byId('glance-picture').replaceChildren(...figure ? figure.box.querySelectorAll('svg') : []);
    if (figure) this.figures.push(figure);
  }

  /** @param {number} time */
  point(time) {
    this.moment = Math.round(time);
    this.isAtEnd = this.moment >= this.to;
    const share = (this.moment - this.from) / (this.to - this.from);
    if (document.activeElement !== this.slider) this.slider.value = String(Math.round(1000 * share));
    const words = this.figures.filter(({ room }) => !room.only).map(figure => figure.wordsAt(share)).join('; ');
    this.slider.setAttribute('aria-valuetext', `${duration(this.moment)}: ${words}`);
    setText(byId('moment-value'), clock(this.moment));
    for (const figure of this.figures) figure.point(share);
    this.network.point(share);
  }
}

