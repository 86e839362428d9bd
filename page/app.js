// @ts-check
// The page: puts the parts together.

import { showAnswer } from './answer.js';
import { Curve } from './curve.js';
import { buttonById, byId, count, detailsById, element, inputById, saveAs, selectById, setText } from './dom.js';
import { Editor, isShort } from './editor.js';
import { withValue } from './edits.js';
import { EXAMPLES, FIRST } from './facts.js';
import { Fault, versionOf } from './faults.js';
import { keepChoice, kept } from './kept.js';
import { linkOf, linkedIn } from './link.js';
import { LogView } from './log_view.js';
import { NetworkView } from './network_view.js';
import { NumberPanel, written } from './numbers.js';
import { Pictures } from './pictures.js';
import { Player } from './player.js';
import { Requirement } from './require.js';
import { Scenario, said } from './scenario.js';
import { Seeds } from './seeds.js';
import { Side } from './side.js';
import { lossOf, showTables } from './tables.js';
import { duration, fixed, grouped, several } from './units.js';

/** @typedef {import('./link.js').File} File */
/** @typedef {import('./answer.js').Tile} Tile */
/** @typedef {import('./scenario.js').Item} Item */

// So long the page waits after a change before it runs again what took long.
const PAUSE = 350;
// A run that takes longer than this is reported with its seconds, and is broken off by a change.
const LONG = 500;
// The log and the link follow so long after the pictures, so that a slider moves them alone.
const SETTLED = 100;

/** @type {Side[]} */
let sides = [];
// The variant that is edited; there is none before the first text is opened.
/** @type {Side} */
let active;
/** @type {number | undefined} */
let timer;
/** @type {number | undefined} */
let settling;
let linked = 0;
// The number whose slider moves, the tiles of before it began to, and those that are shown.
/** @type {string | null} */
let sliding = null;
/** @type {Tile[] | null} */
let before = null;
/** @type {Tile[] | null} */
let tiles = null;
// Whether the address keeps a link that could not be opened, until the reader changes or opens something.
let isKept = false;

const editor = new Editor(text => edited(text, 'typed'));
const numbers = new NumberPanel(changeNumber, slider => { if (active.isDone) curve.begin(slider, active); });
const require = new Requirement(() => showAgain());
const network = new NetworkView((kind, names) => numbers.open(kind, names));
const pictures = new Pictures(require, network);
const player = new Player(pictures);
const curve = new Curve(require, (slider, value) => slider.choose(value));
const seeds = new Seeds(() => {
  showAgain();
  count('spread');
});
const log = new LogView();

// A change of the text of the variant that is edited: it runs at once if the last run was quick.
/** @param {string} text @param {'typed' | 'slid'} how */
function edited(text, how) {
  active.text = text;
  releaseLink();
  if (how !== 'slid') {
    showNumbers(false);
    [sliding, before] = [null, null];
  }
  tellDifference();
  if (!inputById('live').checked) {
    setText(byId('waits'), '');
    setText(byId('status'), 'The text has changed: Run shows what comes out.');
    return;
  }
  clearTimeout(timer);
  const side = active, wasQuick = !side.isRunning && (side.result?.took ?? 0) + (side.result?.read ?? 0) < LONG;
  timer = setTimeout(() => runAlone(side), wasQuick ? (how === 'typed' ? 150 : 0) : PAUSE);
}

// Runs variants by themselves; says why if one of them waits for a press of Run, and ends what runs.
/** @param {...Side} chosen */
function runAlone(...chosen) {
  const why = chosen.map(side => side.whyWaits).find(it => it);
  if (!why) {
    for (const side of chosen) side.run();
    return;
  }
  for (const side of chosen) if (side.isRunning) side.stop('');
  showFault();
  setStale(true);
  setText(byId('status'), byId('results').hidden ? 'Not run yet.' : 'Not run yet: below is what came out before.');
  setText(byId('waits'), why);
}

// The numbers of the text that is edited, and whether it has version 3; a long text has none.
/** @param {boolean} isFresh */
function showNumbers(isFresh) {
  const scenario = editor.isShort ? new Scenario(editor.text) : null;
  setText(byId('version-note'), scenario && versionOf(scenario) > 2
    ? 'This scenario has version 3, which the program reads with --v3.' : '');
  if (scenario) numbers.show(scenario, isFresh);
  else numbers.clear();
}

// A slider has been moved: the numbers at these places get a value. Of a pair of bounds the other one goes along, so
// that the first is not above the second.
/** @param {string[]} places @param {number} value */
function changeNumber(places, value) {
  const slider = places.join();
  if (sliding !== slider) [sliding, before] = [slider, tiles];
  editor.put(withValue(editor.text, places, value));
  numbers.show(new Scenario(editor.text), false);
  edited(editor.text, 'slid');
}

// Each number, text and word of a scenario by its place, for what differs between two.
/** @param {string} text @returns {Map<string, string>} */
function placesIn(text) {
  /** @type {Map<string, string>} */
  const found = new Map();
  const scenario = new Scenario(text);
  const take = (/** @type {Item} */ table, /** @type {string} */ title) => {
    for (const [key, node] of table.value) {
      if (['table', 'list'].includes(node.type)) continue;
      found.set(`${key}${title}`, node.type === 'integer' && node.value < 2n ** 53n ? written(key, Number(node.value))
        : String(node.value));
    }
  };
  take(scenario.top, '');
  for (const of of ['queue', 'actor', 'task']) {
    scenario.items(of).forEach((item, i) => {
      if (item.type === 'table') take(item, ` of ${said(item, 'name') ?? `${of} ${i + 1}`}`);
    });
  }
  return found;
}

function tellDifference() {
  if (sides.length < 2) {
    setText(byId('difference'), '');
    return;
  }
  if (!sides.every(side => isShort(side.text))) {
    setText(byId('difference'), 'The texts are long, so their differences are not listed.');
    return;
  }
  const [before, after] = sides.map(side => placesIn(side.text));
  /** @type {string[]} */
  const changes = [];
  for (const key of new Set([...before.keys(), ...after.keys()])) {
    const [a, b] = [before, after].map(found => found.get(key)?.slice(0, 40) ?? 'none');
    if (before.get(key) !== after.get(key)) changes.push(`${key}: ${a} → ${b}`);
  }
  setText(byId('difference'), changes.length === 0 ? 'A and B are the same so far.'
    : `From A to B: ${changes.slice(0, 5).join('; ')}${changes.length > 5 ? `; and ${changes.length - 5} more` : ''}.`);
}

// What is shown as a run begins or ends.
/** @param {Side} side */
function changed(side) {
  buttonById('stop').disabled = !sides.some(it => it.isRunning);
  seeds.stop();
  if (side.isRunning) {
    setText(byId('waits'), '');
    setStale(true);
    tickWhileRunning();
    return;
  }
  if (side === active) showFault();
  if (sides.some(it => it.isRunning)) return;
  showAll();
}

// Greys what is shown, if it is not what comes out of the text.
/** @param {boolean} isStale */
function setStale(isStale) {
  for (const id of ['results', 'more-outputs', 'answer', 'tiles', 'glance-picture']) {
    byId(id).classList.toggle('stale', isStale);
  }
}

function tickWhileRunning() {
  const running = sides.find(side => side.isRunning);
  if (!running) return;
  const seconds = (performance.now() - (running.began ?? 0)) / 1000;
  if (seconds * 1000 > LONG) {
    setText(byId('status'), `Running for ${Math.floor(seconds)} s. Stop, or the key Escape, ends it.`);
  }
  setTimeout(tickWhileRunning, seconds < 1 ? 100 : 500);
}

// Shows why the variant that is edited was refused, and marks the place in its text.
function showFault() {
  const box = byId('fault'), isRefused = active.result && active.result.code !== 0 && active.ran === active.text;
  box.hidden = !isRefused;
  if (!isRefused || !active.result) {
    editor.markFault(null);
    return;
  }
  const names = active.files.map(({ name }) => name);
  const fault = new Fault(active.text, active.result.line, names), { place } = fault;
  editor.markFault(place);
  /** @type {HTMLElement[]} */
  const parts = [element('strong', { textContent: fault.reason }),
    element('code', { textContent: active.result.line })];
  if (place) {
    const [line] = fault.scenario.lineAndColumn(place[0]);
    parts.push(element('button', { type: 'button', textContent: `Go to line ${line}`,
      onclick: () => {
        showText(true);
        editor.goTo(...place);
        // the fault and the text below it
        byId('drawer').scrollIntoView({ block: 'nearest' });
      } }));
  }
  box.replaceChildren(...parts);
}

async function showAll() {
  const done = sides.filter(side => side.isDone), refused = sides.filter(side => !side.isDone);
  const isCurrent = refused.length === 0;
  setStale(!isCurrent);
  setText(byId('status'), statusOf(refused));
  if (!isCurrent) return;
  const loss = lossOf(done);
  byId('loss').hidden = !loss;
  setText(byId('loss'), loss.slice(0, 1).toUpperCase() + loss.slice(1));
  byId('results').hidden = byId('more-outputs').hidden = false;
  clearTimeout(settling);
  tiles = showAnswer(done, before, require);
  // for those who measure when the first answer is there
  if (!performance.getEntriesByName('answer').length) performance.mark('answer');
  curve.draw();
  // the worker counts what is drawn while the tables are made
  const isDrawn = pictures.show(done);
  showTables(done);
  byId('differences').hidden = done.length < 2;
  await isDrawn;
  settling = setTimeout(settle, SETTLED);
}

// Shows the log and the link to what came out, if nothing else runs by then.
async function settle() {
  if (!sides.every(side => side.isDone && !side.isRunning)) return;
  showLog();
  await showLink();
  seeds.begin([...sides], pictures.spreadQuestion);
  count('shown');
}

// Shows what came out once more, as with other seeds or by another requirement.
function showAgain() {
  curve.draw();
  if (!sides.every(side => side.isDone && !side.isRunning)) return;
  showAnswer(sides, before, require);
  pictures.show(sides);
}

/** @param {Side[]} refused */
function statusOf(refused) {
  if (refused.length) {
    const side = refused[0], name = sides.length > 1 ? `${side.name}: ` : '';
    if (side.error) return `${name}${side.error}`;
    return side.result ? `${name}The scenario is refused; below is what came out before.` : '';
  }
  return sides.map(({ name, outcome: result }) => `${sides.length > 1 ? `${name}: ` : ''}`
    + `${several(result.starts.length, 'row')}, the last at ${duration(result.last ?? 0)}, in `
    + `${fixed(result.took / 1000, 3)} s`).join('; ');
}

function showLog() {
  const choice = selectById('log-side');
  if (choice.parentElement) choice.parentElement.hidden = sides.length < 2;
  choice.replaceChildren(...sides.map(({ name }) => element('option', { value: name, textContent: name,
    selected: name === log.side?.name })));
  log.show(sides.find(({ name }) => name === choice.value) ?? sides[0]);
}

// Puts the link to the scenarios into the address of the page, but for one that is kept; gives the link.
async function showLink() {
  const link = await linkOf(sides.map(side => side.text), sides[0].files), status = byId('link-status');
  buttonById('copy').disabled = !link;
  if (!link) setText(status, 'The scenario is too long for a link: save it as a file.');
  else setText(status, '');
  if (isKept) return link;
  try {
    history.replaceState(null, '', link ?? '#');
  } catch {
    linked++;
    location.hash = link ?? '';
  }
  return link;
}

async function copyLink() {
  const link = await showLink(), field = inputById('link');
  if (!link) return;
  field.value = location.href.split('#')[0] + link;
  try {
    await navigator.clipboard.writeText(field.value);
    setText(byId('link-status'), `Copied: a link of ${grouped(field.value.length)} letters, which holds the scenario.`);
  } catch {
    field.hidden = false;
    field.focus();
    field.select();
    setText(byId('link-status'), 'Copy the link from the field.');
  }
}

// Opens texts, as variant A or as A and B, with script files for both, and runs them.
/** @param {string[]} texts @param {File[]} files @param {number | null} example */
function open(texts, files = [], example = null) {
  releaseLink();
  showAsked(example);
  put(texts, files);
  runAlone(...sides);
}

// Puts texts and files in the place of all.
/** @param {string[]} texts @param {File[]} files */
function put(texts, files) {
  for (const side of sides) side.stop('');
  clearTimeout(timer);
  sides = texts.map((text, i) => Object.assign(new Side('AB'[i], changed), { text, files }));
  curve.close();
  edit(sides[sides.length - 1]);
  pictures.zoom = null;
  [sliding, before] = [null, null];
  tellFiles();
}

// Opens the link of the address. If it cannot be opened, a line says why, and the address and the text stay. Gives
// whether the address has a link, and not the name of a part of the page.
async function openLink() {
  const { hash } = location;
  if (hash.length < 2 || byId(hash.slice(1))) return false;
  const { fault, texts, files } = await linkedIn(hash);
  if (fault === undefined) {
    open(texts ?? [], files);
    return true;
  }
  isKept = true;
  byId('link-fault').hidden = false;
  setText(byId('link-fault'), fault);
  if (!active) {
    put([''], []);
    setText(byId('status'), 'There is no scenario: open an example or a file, or write one.');
  }
  return true;
}

// The address need not keep its link any more.
function releaseLink() {
  isKept = false;
  byId('link-fault').hidden = true;
}

// Says which script files there are.
function tellFiles() {
  const told = sides[0].files.map(({ name, bytes }) => `${name} (${several(bytes.length, 'byte')})`);
  setText(byId('files'), told.length ? `Script files: ${told.join(', ')}.` : '');
}

// Opens files: a scenario, or two as variants, with their scripts; or scripts alone for the scenario that is there.
// Those of several whose names end with .toml are scenarios; a single one is a script if it is a .csv or asked for.
/** @param {globalThis.File[]} chosen */
async function openFiles(chosen) {
  const asked = new Scenario(active.text).items('actor').map(actor => said(actor, 'script'));
  const isToml = (/** @type {globalThis.File} */ { name }) => /\.toml$/i.test(name);
  const isScript = (/** @type {globalThis.File} */ { name }) => /\.csv$/i.test(name) || asked.includes(name);
  const scenarios = chosen.some(isToml) ? chosen.filter(isToml) : chosen.filter(file => !isScript(file));
  if (scenarios.length > 2) {
    setText(byId('status'), 'At most two scenarios are opened at once, as variants.');
    return;
  }
  const scripts = await Promise.all(chosen.filter(file => !scenarios.includes(file))
    .map(async file => ({ name: file.name, bytes: new Uint8Array(await file.arrayBuffer()) })));
  if (scenarios.length) open(await Promise.all(scenarios.map(file => file.text())), scripts);
  else addScripts(scripts);
}

// Puts script files beside the scenarios, in place of those of the same names.
/** @param {File[]} scripts */
function addScripts(scripts) {
  const kept = sides[0].files.filter(({ name }) => !scripts.some(script => script.name === name));
  for (const side of sides) side.files = [...kept, ...scripts];
  tellFiles();
  releaseLink();
  runAlone(...sides);
}

// The choices of the variant to edit.
function variantChoices() {
  return /** @type {HTMLInputElement[]} */ ([...document.querySelectorAll('[name=variant]')]);
}

// Shows a variant in the editor.
/** @param {Side} side */
function edit(side) {
  active = side;
  editor.open(side.text);
  showNumbers(true);
  byId('variants').hidden = sides.length < 2;
  byId('compare').hidden = sides.length > 1;
  for (const it of variantChoices()) it.checked = it.value === side.name;
  tellDifference();
  if (side.result) showFault();
}

function compare() {
  const copy = Object.assign(new Side('B', changed), { text: active.text, files: active.files });
  releaseLink();
  sides = [sides[0], copy];
  edit(copy);
  runAlone(copy);
}

// Saves the differences of the two variants that are shown, as the program's `compare` prints them.
async function saveDifferences() {
  const [first] = sides, texts = sides.map(({ ran }) => ran ?? '');
  const { code, bytes, line, isSecond, error } = await first.ask({ texts, files: first.files });
  if (code === 0) saveAs('differences.csv', [bytes], 'text/csv');
  else setText(byId('status'), error ?? `${isSecond ? 'B' : 'A'}: ${line}`);
}

// Keeps one of two variants, as A.
/** @param {string} name */
function keep(name) {
  const kept = sides.find(side => side.name === name);
  if (!kept) return;
  for (const side of sides) if (side !== kept) side.stop('');
  releaseLink();
  kept.name = 'A';
  sides = [kept];
  edit(kept);
  if (kept.isDone) showAll();
  else runAlone(kept);
}

// The questions as cards, each of which opens the first of its examples.
function showQuestions() {
  // on a narrow screen the cards would hide what comes out
  detailsById('questions').open = !matchMedia('(max-width: 1199px)').matches;
  byId('cards').replaceChildren(...[...new Set(EXAMPLES.map(({ question }) => question))].map(question => {
    const number = EXAMPLES.findIndex(example => example.question === question), { version } = EXAMPLES[number];
    return element('button', { type: 'button', className: 'question', onclick: () => openExample(number) },
      question, version > 2 ? element('span', { className: 'mark', textContent: `version ${version}` }) : '');
  }));
}

// Opens an example, and shows the question that it is about.
/** @param {number} number */
function openExample(number) {
  if (matchMedia('(max-width: 1199px)').matches) detailsById('questions').open = false;
  open([EXAMPLES[number].text], [], number);
}

// Shows the question of an example with a button for each of its variants; null is no example.
/** @param {number | null} number */
function showAsked(number) {
  const asked = number === null ? null : EXAMPLES[number];
  byId('asked').hidden = !asked;
  numbers.ask(asked?.varies ?? []);
  for (const card of byId('cards').children) {
    card.setAttribute('aria-pressed', String(asked !== null && card.firstChild?.textContent === asked.question));
  }
  if (!asked) return;
  setText(byId('asked-title'), asked.question);
  const variants = [...EXAMPLES.entries()].filter(([, { question }]) => question === asked.question);
  byId('asked-variants').replaceChildren(...variants.map(([i, { name, answer }]) => element('button', { type: 'button',
    textContent: titleOf(name), title: answer, 'aria-pressed': String(i === number), onclick: () => openExample(i) })));
  const keys = [...new Set(numbers.firstOf(numbers.numbersIn(new Scenario(asked.text))).map(({ key }) => key.name))];
  setText(byId('asked-note'), asked.answer + (keys.length ? ` Try: ${keys.join(', ')}.` : ''));
}

// Shows the text of the scenario, or folds it away.
/** @param {boolean} isShown */
function showText(isShown) {
  byId('drawer').hidden = !isShown;
  // the fault stands beside the text, or on top
  (isShown ? byId('drawer') : byId('first-inputs')).prepend(byId('fault'));
  byId('show-text').setAttribute('aria-expanded', String(isShown));
  document.body.classList.toggle('with-text', isShown);
  keepChoice('text', isShown ? 'shown' : 'hidden');
}

/** @param {string} name */
const titleOf = name => name.replace(/[.]toml$/, '').replaceAll('_', ' ');

// Keeps the tiles, and the inputs as far as they fit, in view as the page scrolls: the lower end of inputs that are
// longer than the window comes into view with the page, so that there is one scroll bar alone.
function keepInView() {
  const tall = byId('glance').offsetHeight, below = Math.min(tall + 8, innerHeight - byId('inputs').offsetHeight);
  for (const { style } of [document.documentElement, byId('moment-row'), byId('inputs')]) {
    style.setProperty('--tiles', `${tall}px`);
    style.setProperty('--inputs', `${below}px`);
  }
}

async function start() {
  showQuestions();
  showText(kept('text') === 'shown');
  detailsById('network').open = kept('network') !== 'hidden';
  const first = EXAMPLES.findIndex(({ folder, name }) => `${folder}/${name}` === FIRST);
  if (!await openLink()) openExample(first);
}

const sizes = new ResizeObserver(keepInView);
for (const id of ['glance', 'inputs']) sizes.observe(byId(id));
window.addEventListener('resize', keepInView);
byId('moment').addEventListener('input', () => player.stop());
byId('network').addEventListener('toggle', () =>
  keepChoice('network', detailsById('network').open ? 'shown' : 'hidden'));
byId('show-text').onclick = () => {
  showText(byId('drawer').hidden);
  if (!byId('drawer').hidden) editor.open(editor.text);
};
inputById('file').onchange = async () => {
  const input = inputById('file');
  if (input.files?.length) await openFiles([...input.files]);
  input.value = '';
};
// Files that are dropped anywhere open as those that are chosen, and so does a text that is pasted beside all fields.
document.addEventListener('dragover', event => {
  if (event.dataTransfer?.types.includes('Files')) event.preventDefault();
});
document.addEventListener('drop', async event => {
  const files = [...event.dataTransfer?.files ?? []];
  if (!files.length) return;
  event.preventDefault();
  await openFiles(files);
});
document.addEventListener('paste', event => {
  if (/^(INPUT|TEXTAREA)$/.test(document.activeElement?.tagName ?? '')) return;
  const text = event.clipboardData?.getData('text/plain') ?? '';
  if (text.trim()) open([text]);
});
// What a change has put off does not begin, or end, what is asked for here.
byId('run').onclick = () => {
  clearTimeout(timer);
  for (const side of sides) side.run();
};
byId('stop').onclick = () => {
  clearTimeout(timer);
  for (const side of sides) if (side.isRunning) side.stop('The run was stopped.');
};
byId('save').onclick = () => saveAs('scenario.toml', [active.text], 'text/plain');
byId('copy').onclick = copyLink;
byId('compare').onclick = compare;
byId('differences').onclick = saveDifferences;
byId('keep-a').onclick = () => keep('A');
byId('keep-b').onclick = () => keep('B');
selectById('log-side').onchange = () =>
  log.show(sides.find(({ name }) => name === selectById('log-side').value) ?? sides[0]);
byId('log-here').onclick = () => {
  log.goTo(pictures.moment);
  byId('log').focus();
};
for (const it of variantChoices()) it.onchange = () => edit(sides.find(({ name }) => name === it.value) ?? sides[0]);
document.addEventListener('keydown', event => {
  if (event.key === 'Enter' && (event.ctrlKey || event.metaKey)) byId('run').click();
  if (event.key === 'Escape' && !buttonById('stop').disabled) byId('stop').click();
});
window.addEventListener('hashchange', async () => {
  if (linked-- > 0) return;
  linked = 0;
  await openLink();
});
start();
