// What test_page_parts.py runs in Node: functions that are global there, like what modules of the page export, and at
// the end TESTS, of which each is a test.

// Packs JSON into a link of a form, without the bounds of the page.
export const packed = async (form, what) => {
  const through = new CompressionStream({ 1: 'deflate-raw', 2: 'deflate' }[form]);
  const stream = new Blob([typeof what === 'string' ? what : JSON.stringify(what)]).stream().pipeThrough(through);
  return `#${form}${Buffer.from(await new Response(stream).arrayBuffer()).toString('base64url')}`;
};

const linksThatOpen = async () => {
  const file = { name: 'a.csv', bytes: Uint8Array.from([0, 200, 255]) }, found = [];
  for (const [texts, files] of [[['a = 1 # \u{1f600}'], []], [['', 'b'], [file]]]) {
    const link = await linkOf(texts, files), it = await linkedIn(link);
    found.push([link.slice(0, 2), it.texts, it.files.map(({ name, bytes }) => [name, [...bytes]])]);
  }
  for (const texts of [['one'], ['a', 'b']]) found.push(await linkedIn(await packed(1, texts)));
  return found;
};

export const eachDamageIsSeen = async (values) => {
  const link = await linkOf(values, []), found = new Set(), opened = [];
  for (let i = 1; i < link.length; i++) {
    const cut = link.slice(0, i), changed = `${cut}${link[i] === 'A' ? 'B' : 'A'}${link.slice(i + 1)}`;
    for (const it of [cut, changed]) {
      const { fault, texts } = await linkedIn(it);
      found.add(fault);
      if (texts) opened.push(it);
    }
  }
  return [[...found], opened, link.length > 200];
};

const aLinkUnpacksOneMegabyte = async () => {
  const made = DecompressionStream;
  let unpacked = 0;
  globalThis.DecompressionStream = function (form) {
    const count = new TransformStream({ transform(it, to) { unpacked += it.length; to.enqueue(it); } });
    const { readable, writable } = new made(form);
    return { readable: readable.pipeThrough(count), writable };
  };
  const large = length => packed(1, ['a'.repeat(length - 4)]), found = [];
  found.push((await linkedIn(await large(1e6))).texts[0].length);
  for (const length of [1e6 + 1, 64e6]) found.push((await linkedIn(await large(length))).fault);
  const files = [{ name: 'b', bytes: { length: 1e9 } }];
  const makes = [await linkOf(['a'.repeat(1e6 - 3)], []), await linkOf(['a'], files)];
  return [found, unpacked < 4e6, makes, (await linkOf(['a'.repeat(1e6 - 4)], [])).length < 30000];
};

const figuresOfALog = text => {
  const bytes = encoded(text), at = lastLine(bytes, 'figure,of,', bytes.length);
  return [at, lastLine(bytes, 'report,queue,', at), [...figuresIn(bytes, at)],
    recordsOf(bytes, 6, at, 'report')];
};

const placesOfOneMessage = () => {
  const queue = { times: { whole: [10, 95] }, changes: { whole: [ENTERED, 4 * VISIBLE + NOWHERE] } };
  return placesOverTime(queue, 0, 100, 5).map(it => [...it.means, it.least[4], it.greatest[4]]);
};

const aRoomThatIsTooShort = async () => {
  const memory = new WebAssembly.Memory({ initial: 4 }), rooms = [];
  let end = 8;
  const room = size => { rooms.push(Number(size)); const at = end; end += 64; return BigInt(at); };
  const rehearse = (...words) => {
    const [at, size, needed] = words.slice(-3).map(Number);
    new DataView(memory.buffer).setBigUint64(needed, 5n, true);
    if (size !== 5) return NO_ROOM;
    new Uint8Array(memory.buffer, at, 5).set(encoded('whole'));
    return DONE;
  };
  WebAssembly.instantiate = async () => ({ exports: { memory, room, rehearse } });
  const { code, bytes } = await answered(null, 'rehearse', { readsVersion3: true }, ['a'], []);
  return [code, new TextDecoder().decode(bytes), rooms.includes(Number(ROOM)), rooms.includes(5)];
};

const theAnswer = given => {
  const runs = given.map(([values, busy]) => ({ values, last: 598123, forDeadLetters: ['failed'],
    consumers: ['packer', 'mailer'], busy: busy.map(([name, permille]) => ({ name, permille })) }));
  return runs.map(run => [sentenceOf(run), tilesOf(run)
    .map(({ label, number, written, note, name }) => [label, number === null ? null : written(number),
      note || name || ''])]);
};

export const theNetwork = async (values) => {
  const { nodes, edges } = networkOf(new Scenario(values[0]));
  return [nodes.map(it => [it.id, it.kind, calledOf(it)]),
    edges.map(({ from, to, kind, flow }) => [from, to, kind, flow.queue, flow.agents.join(), flow.row]
      .concat(flow.share ?? []))];
};

const numbersAtMoments = () => {
  const question = { from: 0, to: 100, count: 5 }, changes = [ENTERED, 4 * VISIBLE + 1, 4 * 1 + NOWHERE];
  return [[...countsAt([0, 24, 25, 26, 100, 101], question)],
    placesAt([25, 30, 75], changes, question).map(it => [...it])];
};

const outOfMemory = () => {
  const errors = [new WebAssembly.RuntimeError('unreachable'), new Error('x'),
    new Error('There is no memory for the output.')];
  return errors.map(toldOf);
};

const DAMAGED = 'This link is cut or damaged: what it held cannot be shown.';
const LATER = 'This link is of a later version of the page: what it holds cannot be shown.';
const LARGE = 'This link holds more than 1 MB, which this page does not unpack: what it holds cannot be shown.';

// Each fault of a link, with its sentence.
const NO_LINKS = [
  ['#!!!!', DAMAGED], ['#zzz', DAMAGED], ['#2', DAMAGED], ['#2!!!!', DAMAGED], ['#17ZPdbtswDIVf', DAMAGED],
  ['#3abc', LATER], ['#0', LATER]];
const NO_CONTENTS = [
  ['[', DAMAGED], [['a', 'b', 'c'], LATER], [[], LATER], [null, LATER], [{ texts: ['a'] }, LATER],
  [{ texts: ['a'], files: [['name']] }, LATER]];

// A text with what stands behind its first field and the comma.
const FIELDS = [['"a""b",x', 7], ['"",x', 3], ['"""",x', 5], ['ab,x', 3], [',x', 1], ['"a,b",x', 6]];

const FIGURES = '0,q,a\nreport,queue,x\nreport,q,1\nfigure,of,name,value\nfigure,q,left,3\nfigure,q,age_p95_ms,\n'
  + 'figure,c,busy_ms,5\n';

// The numbers of a queue that the answer is made of.
const valuesOf = (queue, numbers = {}) => ({ queue, came_in: 0, sent: 0, came_by_forward: 0, deleted: 0,
  dead_lettered: 0, handled_more_than_once: 0, moved_away: 0, lost_by_expiry: 0, left: 0, age_p95_ms: null,
  depth_greatest: 0, depth_greatest_at_ms: null, dead_lettered_to: [], ...numbers });
const ORDERS = valuesOf('orders', { came_in: 42, sent: 40, deleted: 39, dead_lettered: 2, handled_more_than_once: 5,
  left: 1, age_p95_ms: 10227, depth_greatest: 7, depth_greatest_at_ms: 61000, dead_lettered_to: ['failed'] });
const FAILED = valuesOf('failed', { came_in: 2, left: 2, depth_greatest: 9, depth_greatest_at_ms: 3,
  age_p95_ms: 99999 });
const MAIL = valuesOf('mail', { came_in: 39, came_by_forward: 39, deleted: 39, age_p95_ms: 11000, lost_by_expiry: 1,
  depth_greatest: 7, depth_greatest_at_ms: 5 });
// Runs with their busiest consumers, in permilles, and what is told of them: a sentence, and tiles.
const ANSWERS = [
  [[[ORDERS, FAILED], [['packer', 870]]],
    ['In 9 min 58 s, 42 messages came into orders: 39 were deleted, 2 were dead-lettered to failed and 1 is left at '
      + 'the end. 95 of 100 took at most 10.2 s.',
    [['dead letters', '2', 'in failed'], ['age at 95 %', '10.2 s', ''], ['handled again', '5', ''],
      ['greatest backlog', '7', 'at 1 min 1 s'], ['busiest consumer', '87 %', 'packer']]]],
  [[[ORDERS, FAILED, MAIL], [['packer', 870], ['mailer', 901]]],
    ['In 9 min 58 s, 40 messages were sent to 2 queues: 2 were dead-lettered to failed, 1 was lost by expiry and 1 is '
      + 'left at the end. 95 of 100 took at most 11.0 s in mail, the slowest. mailer was busy 90.1 % of the time: over '
      + '90 %, ages depend on how long the run is.',
    [['dead letters', '2', 'in failed'], ['age at 95 %', '11.0 s', 'in mail'], ['handled again', '5', ''],
      ['greatest backlog', '7', 'in orders at 1 min 1 s'], ['busiest consumer', '90.1 %', 'mailer']]]],
  [[[valuesOf('q')], [['site', 996]]],
    ['In 9 min 58 s, no message came in.',
      [['dead letters', '0', ''], ['age at 95 %', null, ''], ['handled again', '0', ''], ['greatest backlog', '0', ''],
        ['busiest consumer', null, '']]]]];

// Numbers of keys, and how they are written; and others that people write, with what is meant.
const WRITTEN = [
  ['horizon', 600000, '10 min'], ['gap_min_ms', 400, '400 ms'], ['gap_min_ms', 1500, '1.5 s'],
  ['gap_min_ms', 12345, '12,345 ms'], ['retention_s', 345600, '4 days'], ['visibility_s', 90, '90 s'],
  ['retention_s', 86400, '1 day'], ['visibility_s', 0, '0 s'], ['fail_permille', 333, '33.3 %'],
  ['count', 1000000, '1,000,000'], ['horizon', 5400000, '90 min'], ['seed', 7, '7']];
const TYPED = [
  ['visibility_s', '1.5 min', 90], ['visibility_s', '30', 30], ['gap_min_ms', '2s', 2000],
  ['visibility_s', '400 ms', null], ['fail_permille', '20', 200], ['fail_permille', '0.5%', 5],
  ['count', '1,5 00', null], ['count', '10 min', null], ['horizon', '2 days', 172800000], ['count', '', null]];

// Keys with stops that a slider over what they may have has among others.
const SLIDERS = [
  [{ name: 'batch', low: 1, high: 10 }, [1, 2, 3, 4, 5, 6, 7, 8, 9, 10]],
  [{ name: 'visibility_s', low: 0, high: 43200 }, [0, 1, 30, 60, 900, 3600, 43200]],
  [{ name: 'max_receives', low: 1, high: 1000 }, [1, 2, 3, 10, 100, 1000]],
  [{ name: 'gap_min_ms', low: 1, high: 86400000 }, [1, 100, 400, 1500, 60000, 36000000]],
  [{ name: 'retention_s', low: 60, high: 1209600 }, [60, 3600, 345600, 1209600]]];
// Whether a slider stops at both ends and at these numbers, at whole ones that ascend, and not too often; at a few
// numbers it stops at each.
const isRightSlider = ([key, some]) => {
  const stops = stopsOf(key), ascend = [...new Set(stops)].sort((a, b) => a - b);
  return [stops[0], stops.at(-1), some.every(it => stops.includes(it)), String(stops) === String(ascend),
    stops.every(Number.isInteger) && stops.length <= 100, key.high > 10 || String(stops) === String(some)];
};

// Whether a path of the command line of sweep names a number.
const NAMED = [
  ['queue.orders.visibility_s', 'queue', 'orders', 'visibility_s', true],
  ['queue.*.visibility_s', 'queue', 'orders', 'visibility_s', true],
  ['actor.mailer-*.wait_s', 'actor', 'mailer-2', 'wait_s', true],
  ['actor.mailer-*.wait_s', 'actor', 'site', 'wait_s', false],
  ['queue.a.fifo.max_receives', 'queue', 'a.fifo', 'max_receives', true],
  ['queue.a.fifo.max_receives', 'queue', 'abfifo', 'max_receives', false],
  ['queue.orders.visibility_s', 'actor', 'orders', 'visibility_s', false],
  ['queue.orders.visibility_s', 'queue', 'orders', 'delay_s', false]];

// Texts with a seed so many behind theirs, which may have none; and the least, the middle and the greatest of numbers.
const SEEDS = [
  ['seed = 7\nhorizon = 1\n', 3, 'seed = 10\nhorizon = 1\n'], ['horizon = 1\n', 2, 'seed = 2\nhorizon = 1\n'],
  ['\ufeffhorizon = 1\n', 1, '\ufeffseed = 1\nhorizon = 1\n'], ['seed = 5\n', 0, 'seed = 5\n'],
  ['version = 1\nseed=9223372036854775807 # last\n', 1, 'version = 1\nseed=0 # last\n']];
const RANGES = [
  [[3, 1, 2], [1, 2, 3]], [[4, 1, 2, 3], [1, 2, 4]], [[null, 5], [5, 5, 5]], [[null], null], [[7], [7, 7, 7]]];

// What browsers say when memory is out.
const OUT_OF_MEMORY = ['WebAssembly.instantiate(): Out of memory: Cannot allocate Wasm memory for new instance',
  'WebAssembly.Memory(): could not allocate memory', 'Array buffer allocation failed', 'out of memory',
  'allocation size overflow', 'Invalid typed array length: 4294967296', 'invalid array length'];

const PAGE = ['scenario', 'faults', 'side', 'link'], WORKER = ['log', 'queue', 'overtime', 'simulator'];
const all = async (rows, of) => Promise.all(rows.map(of)), last = rows => rows.map(row => row.at(-1));
// Each test by what it shows: the modules that it takes, what it gives, and what that has to be.
export const TESTS = {
  'a link opens as what it was made of, one text or two, with scripts of any bytes; those of form 1 too': [
    PAGE, linksThatOpen, [['#2', ['a = 1 # \u{1f600}'], []], ['#2', ['', 'b'], [['a.csv', [0, 200, 255]]]],
      { texts: ['one'], files: [] }, { texts: ['a', 'b'], files: [] }]],
  'each fault of a link has its sentence': [
    PAGE, async () => [...await all(NO_LINKS, ([link]) => linkedIn(link)),
      ...await all(NO_CONTENTS, async ([what]) => linkedIn(await packed(2, what)))],
    last([...NO_LINKS, ...NO_CONTENTS]).map(fault => ({ fault }))],
  'a text of 1 MB with its quotes opens; one byte more, and 64 MB, are refused, and no link is made of them': [
    PAGE, aLinkUnpacksOneMegabyte, [[999996, LARGE, LARGE], true, [null, null], true]],
  'each figure is of its queue or agent, and one without a value is none; a line is found behind the log': [
    ['log', 'simulator', 'figures'], () => figuresOfALog(FIGURES),
    [FIGURES.indexOf('figure'), FIGURES.indexOf('report'),
      [['q', { left: 3, age_p95_ms: null }], ['c', { busy_ms: 5 }]], [['report', 'queue', 'x'], ['report', 'q', '1']]]],
  'behind a field and its comma begins the next one; a quote within quotes is doubled': [
    WORKER, () => all(FIELDS, ([text]) => afterField(encoded(text), 0)), last(FIELDS)],
  // A message comes at 10 ms and leaves at 95 of 100. In columns of 20 ms it is there half of the first, and three
  // quarters of the last.
  'places over time': [
    WORKER, placesOfOneMessage, [[0.5, 1, 1, 1, 0.75, 0, 1], Array(7).fill(0), Array(7).fill(0)]],
  'what happens at the very end counts in the last bin, and what is outside in none': [
    WORKER, () => [...countsOverTime([0, 99, 100, 124, 125, 199, 200, 201], 100, 200, 4)], [2, 1, 0, 2]],
  'a run whose answer has no room is run again with a room of just its length, and its answer is shown': [
    WORKER, aRoomThatIsTooShort, [0, 'whole', true, true]],
  'a queue with its dead-letter queue is told by itself, and a chain as a whole with its slowest queue': [
    ['scenario', 'answer'], () => theAnswer(ANSWERS.map(([run]) => run)), last(ANSWERS)],
  'a row counts from its own moment on, and a message is where its last change put it by then': [
    ['queue', 'moments'], numbersAtMoments, [[1, 3, 4, 4, 5], [[0, 1, 0, 0, 0], [0, 0, 1, 0, 0], Array(5).fill(0)]]],
  'each number of a key is in words, from which it is read again': [
    ['numbers'], () => all(WRITTEN, ([name, value]) => [written(name, value), meant(name, written(name, value))]),
    WRITTEN.map(([, value, text]) => [text, value])],
  'numbers that people write are read': [
    ['numbers'], () => all(TYPED, ([name, text]) => meant(name, text)), last(TYPED)],
  'a slider stops at both ends of what its key may have, and at round numbers between them': [
    ['numbers'], () => all(SLIDERS, isRightSlider),
    SLIDERS.map(([key]) => [key.low, key.high, true, true, true, true])],
  'a path of the command line of sweep names the numbers that it names there': [
    ['numbers'], () => all(NAMED, row => isNamed(...row.slice(0, -1))), last(NAMED)],
  'a seed so many behind that of the text, which may have none': [
    ['edits', 'seeds'], () => all(SEEDS, ([text, behind]) => withSeedBehind(text, behind)), last(SEEDS)],
  'the least, the middle and the greatest of numbers': [
    ['edits', 'seeds'], () => all(RANGES, ([numbers]) => rangeOf(numbers)), last(RANGES)],
  'what browsers say when memory is out is shown as that': [
    WORKER, () => all(OUT_OF_MEMORY, it => toldOf(new RangeError(it))),
    OUT_OF_MEMORY.map(it => `There was not enough memory for this run: ${it}.`)],
  'other errors are not shown as that': [
    WORKER, outOfMemory, ['The run was broken off: unreachable.', 'x', 'There is no memory for the output.']],
};
