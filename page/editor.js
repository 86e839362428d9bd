// @ts-check
// The text to edit, with its lines' numbers, colours, the marked fault, and help on the key where one types. Below the
// text area, whose letters are clear, lies the same text in colours.

import { byId, element } from './dom.js';
import { KEYS } from './facts.js';
import { FIRST_LISTS, REQUIRED, TABLES, mayBeNumber, rangeText } from './faults.js';

/** @typedef {import('./facts.js').Key} Key */

// Longer texts have no colours, no help and no sliders, and do not run by themselves.
export const SHORT_MOST = 200000, SHORT_LINES = 5000;
const TOKEN_FORMS = [/"""[^]*?"""|'''[^]*?'''|"(?:[^"\\\n]|\\.)*"|'[^'\n]*'/, /#[^\n]*/, /^[ \t]*\[\[?[^\]\n]*\]\]?/,
  /^[ \t]*[\w-]+(?=[ \t]*=)/];
const TOKENS = new RegExp(TOKEN_FORMS.map(({ source }) => `(${source})`).join('|'), 'gm');
const TOKEN_NAMES = ['text', 'comment', 'header', 'key'];
const HEADER = /^\s*\[\[?\s*(queue|actor|task)\s*\]\]?/;

// Whether a text is so short; no more of its lines are counted than that.
/** @param {string} text */
export function isShort(text) {
  if (text.length > SHORT_MOST) return false;
  let at = -1;
  for (let lines = 0; lines < SHORT_LINES; lines++) {
    at = text.indexOf('\n', at + 1);
    if (at < 0) return true;
  }
  return false;
}

export class Editor {
  // `changed` is called with the text as it changes.
  /** @param {(text: string, how: 'typed') => void} changed */
  constructor(changed) {
    this.area = /** @type {HTMLTextAreaElement} */ (byId('text'));
    this.colours = byId('colours');
    this.lines = byId('lines');
    /** @type {[number, number] | null} */
    this.mark = null;
    this.area.addEventListener('input', () => {
      this.mark = null;
      this.draw();
      changed(this.text, 'typed');
    });
    this.area.addEventListener('scroll', () => this.follow());
    document.addEventListener('selectionchange', () => {
      if (document.activeElement === this.area) this.help();
    });
    this.area.addEventListener('focus', () => this.help());
    this.changed = changed;
  }

  get text() {
    return this.area.value;
  }

  get isShort() {
    return isShort(this.text);
  }

  // Puts another text in the place of all.
  /** @param {string} text */
  open(text) {
    this.area.value = text;
    this.area.setSelectionRange(0, 0);
    this.mark = null;
    this.draw();
    // this lays the text out, so it comes last
    this.area.scrollTop = this.area.scrollLeft = 0;
    this.help();
  }

  /** @param {number} from @param {number} to @param {string} text */
  replace(from, to, text) {
    this.area.setRangeText(text, from, to, 'preserve');
    this.mark = null;
    this.draw();
  }

  // Puts another text in the place of all that differs, so that one step back takes it away.
  /** @param {string} text */
  put(text) {
    const old = this.text, most = Math.min(old.length, text.length);
    let from = 0, behind = 0;
    while (from < most && old[from] === text[from]) from++;
    while (behind < most - from && old[old.length - 1 - behind] === text[text.length - 1 - behind]) behind++;
    this.replace(from, old.length - behind, text.slice(from, text.length - behind));
  }

  // Marks a part of the text as faulty; null marks nothing.
  /** @param {[number, number] | null} place */
  markFault(place) {
    this.mark = place;
    this.area.setAttribute('aria-invalid', String(place !== null));
    this.draw();
  }

  /** @param {number} from @param {number} to */
  goTo(from, to) {
    this.area.focus({ preventScroll: true });
    this.area.setSelectionRange(from, to);
    const height = parseFloat(getComputedStyle(this.area).lineHeight);
    this.area.scrollTop = Math.max(0, (this.lineOf(from) - 4) * height);
    this.follow();
  }

  follow() {
    const { scrollTop, scrollLeft } = this.area;
    this.colours.style.transform = `translate(${-scrollLeft}px, ${-scrollTop}px)`;
    this.lines.style.transform = `translateY(${-scrollTop}px)`;
  }

  draw() {
    const { text, mark, isShort } = this;
    this.area.classList.toggle('plain', !isShort);
    if (!isShort) {
      this.colours.replaceChildren();
      this.lines.textContent = '';
      return;
    }
    const fault = mark ? this.lineOf(mark[0]) : 0, count = text.split('\n').length;
    this.lines.replaceChildren(...Array.from({ length: count }, (_, i) =>
      element('span', { className: i + 1 === fault ? 'fault' : '', textContent: `${i + 1}\n` })));
    const end = mark ? Math.max(mark[1], mark[0] + 1) : 0;
    const parts = mark ? [...this.coloured(text.slice(0, mark[0])),
      element('mark', {}, ...this.coloured(text.slice(mark[0], end) || ' ')), ...this.coloured(text.slice(end))]
      : this.coloured(text);
    this.colours.replaceChildren(...parts, '\n');
  }

  /** @param {number} at */
  lineOf(at) {
    return this.text.slice(0, at).split('\n').length;
  }

  /** @param {string} text */
  coloured(text) {
    /** @type {(string | Node)[]} */
    const parts = [];
    let last = 0;
    for (const match of text.matchAll(TOKENS)) {
      const name = TOKEN_NAMES[match.slice(1).findIndex(group => group !== undefined)];
      const at = match.index ?? 0;
      parts.push(text.slice(last, at), element('span', { className: `token-${name}`, textContent: match[0] }));
      last = at + match[0].length;
    }
    parts.push(text.slice(last));
    return parts;
  }

  // The table in which the cursor is: its kind as KEYS has it, and the keys that it has.
  tableAtCursor() {
    const lines = this.text.split('\n'), at = this.lineOf(this.area.selectionStart) - 1;
    let first = at, last = at + 1;
    while (first >= 0 && !HEADER.test(lines[first])) first--;
    while (last < lines.length && !HEADER.test(lines[last])) last++;
    const block = lines.slice(Math.max(0, first), last), of = first >= 0 ? HEADER.exec(lines[first])?.[1] ?? '' : '';
    const kinds = /^\s*kind\s*=\s*["'](script|producer|consumer|scaler)["']/m;
    const kind = of === 'actor' ? kinds.exec(block.join('\n'))?.[1] ?? '' : '';
    const version = Number(/^\s*version\s*=\s*([123])\b/m.exec(this.text)?.[1] ?? 1);
    const there = block.flatMap(line => /^\s*([\w-]+)\s*=/.exec(line)?.[1] ?? []);
    return { keys: KEYS[`${of}/${kind}/${version}`], what: kind || of || 'scenario', there, line: lines[at] };
  }

  // Shows what the key at the cursor means; on a line without one, the keys that may begin as it does.
  help() {
    const help = byId('help');
    if (!this.isShort) {
      help.replaceChildren('This text is long, so it has no colours and no sliders.');
      help.dataset.state = '';
      return;
    }
    const { keys, what, there, line } = this.tableAtCursor(), word = /^\s*([\w-]*)/.exec(line)?.[1] ?? '';
    const found = line.includes('=') && keys.find(key => key.name === word);
    const state = found ? `${what} ${word}` : `${what} ${word} ${there.join()} ${line.includes('=')}`;
    if (help.dataset.state === state) return;
    help.dataset.state = state;
    help.replaceChildren(...(found ? this.aboutKey(found) : this.keysToAdd(keys, what, there, word)));
  }

  /** @param {Key} key */
  aboutKey(key) {
    return [element('code', { textContent: key.name }), ` ${key.about}${rangeText(key)}`,
      key.since > 2 ? ' It is new in version 3.' : ''];
  }

  /** @param {Key[]} keys @param {string} what @param {string[]} there @param {string} word */
  keysToAdd(keys, what, there, word) {
    const open = keys.filter(key => key.kind !== TABLES && !there.includes(key.name) && key.name.startsWith(word));
    if (!open.length) return [`Keys of a ${what}: ${keys.map(key => key.name).join(', ')}.`];
    const buttons = open.map(key => element('button', { type: 'button', textContent: key.name,
      title: `${key.about}${rangeText(key)}`, onclick: () => this.addKey(key) }));
    return [`Keys that this ${what} may still have: `, ...buttons];
  }

  // Writes a key with a value on the line of the cursor, or on one below it.
  /** @param {Key} key */
  addKey(key) {
    const { area } = this, from = area.value.lastIndexOf('\n', area.selectionStart - 1) + 1;
    const end = area.value.indexOf('\n', area.selectionStart), to = end < 0 ? area.value.length : end;
    const isOver = area.value.slice(from, to).includes('=') || HEADER.test(area.value.slice(from, to));
    const first = key.default !== null && key.default !== REQUIRED ? key.default : mayBeNumber(key) ? key.low : '';
    const value = FIRST_LISTS[key.kind]
      ?? (mayBeNumber(key) || key.kind === 'true or false' ? String(first).toLowerCase() : `"${first}"`);
    const text = `${key.name} = ${value}`;
    this.replace(isOver ? to : from, to, isOver ? `\n${text}` : text);
    const start = (isOver ? to + 1 : from) + key.name.length + 3;
    area.focus();
    area.setSelectionRange(start, start + value.length);
    this.changed(this.text, 'typed');
    this.help();
  }
}
