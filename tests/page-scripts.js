// The scripts that tests/page runs in the page. Each stands below a line `// NAME: what it is`, and finds what it is
// given in `arguments`.

// LINK_TOLD: why a link was not opened, once it is shown.
const it = document.getElementById('link-fault'); return !it.hidden && it.textContent;

// WAITS_TOLD: why a text waits for a press of Run, with what there is of it by then, once it is shown.
const count = id => document.getElementById(id).childNodes.length, { textContent } = document.getElementById('waits');
return textContent && { why: textContent, text: document.getElementById('text').value, lines: count('lines'),
  colours: count('colours'), numbers: count('numbers'), status: document.getElementById('status').textContent,
  hasRun: document.body.dataset.shown !== undefined || !document.getElementById('stop').disabled };

// CUT_FIELDS: the fields whose number is wider than they are.
for (const it of document.querySelectorAll('#numbers details')) it.open = true;
  return [...document.querySelectorAll('.number-row .value')]
  .filter(it => it.scrollWidth > it.clientWidth).map(it => [it.value, it.scrollWidth, it.clientWidth]);

// SLIDERS: the labels of the sliders of an open group, and of those that stand before all groups.
return [...document.querySelectorAll('#first-numbers, #numbers details[open]')]
  .flatMap(group => [...group.querySelectorAll('input[type=range]')]).map(it => it.getAttribute('aria-label'));

// PRESSED: presses a button of the questions, or of the variants of one, by its text.
[...document.querySelectorAll(arguments[0])].find(it => it.firstChild.data === arguments[1]).click();

// ENDS: the time at which the pictures end, by the moment of the slider's end.
const moment = document.getElementById('moment'), { value } = moment, told = document.getElementById('moment-value');
  const at = where => { moment.value = where; moment.dispatchEvent(new Event('input')); return told.textContent; };
  const ends = [at(0), at(1000)]; at(value); return ends;

// DRAGGED: drags over the first picture from a part of its width to another.
const svg = document.querySelector('figure svg'), box = svg.getBoundingClientRect();
  const at = part => ({ bubbles: true, clientX: box.left + box.width * part, clientY: box.top + 20 });
  svg.dispatchEvent(new PointerEvent('pointerdown', at(arguments[0])));
  svg.dispatchEvent(new PointerEvent('pointermove', at(arguments[1])));
  svg.dispatchEvent(new PointerEvent('pointerup', at(arguments[1])));

// CLICKED_TWICE: clicks the first picture twice.
document.querySelector('figure svg').dispatchEvent(new MouseEvent('dblclick', { bubbles: true }));

// SPREAD_TOLD: what the tiles say of other seeds.
return [...document.querySelectorAll('#tiles .spread-of')].map(it => it.textContent);

// BROKEN: how many tiles break the requirement, what they are, and in how many pictures its line is red.
const tiles = [...document.querySelectorAll('.tile.broken .label')];
  return [tiles.length, tiles.map(it => it.firstChild.data).join(), document.querySelectorAll('figure .required.broken').length];

// TILES: the tiles: what each says, its number, and what it was before or is in the other variant.
return [...document.querySelectorAll('#tiles .tile')]
  .map(tile => ['.label', 'strong', '.was'].map(part => tile.querySelector(part).textContent));

// NODES: what each node of the network says, once it is drawn.
return [...document.querySelectorAll('#network .node')].map(it => it.getAttribute('aria-label'));

// MOVED: chooses a part of the time that is shown, and gives the moment.
const it = document.getElementById('moment'); it.value = 1000 * arguments[0]; it.dispatchEvent(new Event('input'));
  return document.getElementById('moment-value').textContent;

// GLANCED: where the tiles and the small picture begin and end, and the first and the last slider begin.
const at = it => it.getBoundingClientRect(), sliders = [...document.querySelectorAll('input[type=range][id^=number]')];
  return [at(document.getElementById('tiles')).top, at(document.querySelector('#glance-picture svg')).bottom,
    at(sliders[0]).top, at(sliders.at(-1)).top];

// COVERED: how many nodes the network has, how many cover another one, and the height of the letters of their names.
const nodes = [...document.querySelectorAll('#network .node')].map(it => it.getBoundingClientRect());
  const isOver = (a, b) => a.left < b.right && b.left < a.right && a.top < b.bottom && b.top < a.bottom;
  const covered = nodes.filter((a, i) => nodes.some((b, j) => i !== j && isOver(a, b))).length;
  const svg = document.querySelector('#network svg'), name = document.querySelector('#network .name');
  const scale = svg.getBoundingClientRect().width / svg.viewBox.baseVal.width;
  return [nodes.length, covered, parseFloat(getComputedStyle(name).fontSize) * scale, svg.getAttribute('width')];

// FAULT_IN_VIEW: whether the fault and the line of the text are in view, below what stays there.
const at = id => document.getElementById(id).getBoundingClientRect();
  return at('fault').top >= at('glance').bottom && at('text').top + 60 <= innerHeight;

// ASKED: asks a worker of the page's own script, and gives the code and the bytes of each answer, and whether the
//   second of two is refused. A question has one text or two, and files with their names.
const [questions, done] = arguments, part = id => document.getElementById(id).textContent;
const bytesOf = text => Uint8Array.from(atob(text), letter => letter.charCodeAt(0));
const unpacked = text => new Blob([bytesOf(text)]).stream();
(async () => {
  const stream = unpacked(part('module')).pipeThrough(new DecompressionStream('gzip'));
  const module = await new Response(stream).arrayBuffer();
  const worker = new Worker(URL.createObjectURL(new Blob([part('worker')], { type: 'text/javascript' }))), told = [];
  const answer = question => new Promise(resolve => {
    worker.onmessage = ({ data }) => resolve(data);
    worker.postMessage(question);
  });
  await answer({ id: 0, module });
  for (const [texts, named, version3] of questions) {
    const [text, second] = texts.map(bytesOf), files = named.map(([name, it]) => ({ name, bytes: bytesOf(it) }));
    const question = { id: 1, files, version3, ...(second ? { texts: [text, second] } : { text }) };
    const { code, bytes: out, line, isSecond, error } = await answer(question);
    let letters = '';
    for (const byte of out ?? new TextEncoder().encode(line ?? error)) letters += String.fromCharCode(byte);
    told.push([code, btoa(letters), Boolean(isSecond)]);
  }
  worker.terminate();
  done(told);
})();

// CHOSEN: chooses files with these names and texts, as a user does.
const chosen = new DataTransfer(), input = document.getElementById('file');
for (const [name, text] of arguments[0]) chosen.items.add(new File([text], name));
input.files = chosen.files;
input.dispatchEvent(new Event('change'));

// GIVEN: drops a file with a text on the page, or pastes the text beside all fields.
const [how, text] = arguments, given = new DataTransfer(), more = { bubbles: true, cancelable: true };
if (how === 'drop') given.items.add(new File([text], 'dropped.toml'));
else given.setData('text/plain', text);
document.activeElement?.blur();
document.body.dispatchEvent(how === 'drop' ? new DragEvent('drop', { dataTransfer: given, ...more })
  : new ClipboardEvent('paste', { clipboardData: given, data: text, dataType: 'text/plain', ...more }));

// KEEPS_SAVED: keeps the text of the next file that the page saves.
const made = URL.createObjectURL;
URL.createObjectURL = blob => {
  URL.createObjectURL = made;
  blob.text().then(text => { document.body.dataset.saved = text; });
  return made.call(URL, blob);
};

// SLID: moves the first slider by a stop, and gives the milliseconds until the pictures are drawn.
const [step, done] = arguments, slider = document.querySelector('#first-numbers input[type=range]');
const began = performance.now(), pictures = new MutationObserver(() => {
  pictures.disconnect();
  done(performance.now() - began);
});
pictures.observe(document.getElementById('pictures'), { childList: true });
slider.value = Number(slider.value) + step;
slider.dispatchEvent(new Event('input', { bubbles: true }));

// TABLES: the tables of the queues: the title of each, and its rows.
return [...document.querySelectorAll('#tables .card')].map(card => [card.querySelector('h4').textContent,
  [...card.querySelectorAll('tbody tr')].map(row => [...row.children].map(cell => cell.textContent))]);

// NAMELESS: the fields and pictures without a name for readers of screens.
return [...document.querySelectorAll('button, input, select, textarea, [tabindex="0"], summary, svg')]
  .filter(it => !it.closest('[hidden]'))
  .filter(it => !(it.getAttribute('aria-label') || it.textContent.trim() || it.labels?.length))
  .map(it => it.outerHTML.slice(0, 120));

// FAULT_MARKED: marks the refusal that the page shows now, so that the next one is known though it has the same words.
document.querySelector('#fault code')?.setAttribute('data-before', '');

// FAULT_TOLD: what is said of a text, once the page shows the line of its refusal anew.
const code = document.querySelector('#fault code:not([data-before])'), area = document.getElementById('text');
return code && code.textContent === arguments[0] && area.value === arguments[1]
  && document.getElementById('fault').textContent;

// TYPED: types a text, as a user does.
const area = document.getElementById('text');
area.value = arguments[0];
area.dispatchEvent(new Event('input'));
