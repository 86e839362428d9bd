// @ts-check
// Calls the module, which has the proved code. A text may be its bytes; the script files are a list of { name, bytes }.

/** @typedef {{ name: string | Uint8Array, bytes: string | Uint8Array }} File */
/**
 * What figures are over, and what a backlog and a window of them is: numbers of 64 bits.
 * @typedef {{ from: bigint, until: bigint, backlog: bigint, window: bigint }} Wanted
 */
/** Whether version 3 is read, and which figures follow the report, if any.
 * @typedef {{ readsVersion3: boolean, figures?: Wanted | null }} Choice */
/**
 * What the module exports: a room of so many bytes, where it is; and two calls, which give a code.
 * @typedef {{ memory: WebAssembly.Memory, room(size: bigint): bigint,
 *   rehearse(...words: (number | bigint)[]): number, compare(...words: (number | bigint)[]): number }} Exports
 */

// The codes of crates/sqs_page; the others are refusals.
export const DONE = 0, NO_ROOM = 2, NO_MEMORY = 3, NO_LINE = 4, NO_FILES = 5, SECOND_REFUSED = 6;
// The first room for the output. Memory that nothing writes to costs nothing, and a run whose room is too short is run
// again.
export const ROOM = 2n ** 30n - 64n, LEAST_ROOM = 2n ** 22n;
/** What the program wants of figures if it is not told more: the whole run, backlogs of more than ten messages, and
 * windows of five minutes.
 * @type {Wanted} */
export const WHOLE_RUN = { from: 0n, until: 2n ** 64n - 1n, backlog: 10n, window: 300000n };

/** @param {WebAssembly.Module} module @returns {Promise<Exports>} */
const instanceOf = module => WebAssembly.instantiate(module, {}).then(({ exports }) => /** @type {any} */ (exports));

// An instance with a room of so many bytes, or of fewer if there is no memory for them.
/** @param {WebAssembly.Module} module @param {bigint} size */
async function roomy(module, size) {
  for (;; size /= 2n) {
    const it = await instanceOf(module), room = it.room(size);
    if (room) return { it, room, size };
    if (size <= LEAST_ROOM) throw new Error('There is no memory for the output.');
  }
}

/** @param {string | Uint8Array} text */
export const encoded = text => typeof text === 'string' ? new TextEncoder().encode(text) : text;

// What the module is given of script files: the name of each with the file behind it, and how long both are.
/** @param {File[]} files */
function laidOut(files) {
  const parts = files.flatMap(({ name, bytes }) => [encoded(name), encoded(bytes)]);
  const whole = new Uint8Array(parts.reduce((length, part) => length + part.length, 0));
  let at = 0;
  for (const part of parts) {
    whole.set(part, at);
    at += part.length;
  }
  return { whole, lengths: new Uint8Array(new BigUint64Array(parts.map(part => BigInt(part.length))).buffer) };
}

// A choice as the module is given it: two bytes that say whether, and four numbers.
/** @param {Choice} choice */
function packedChoice({ readsVersion3, figures = null }) {
  const { from, until, backlog, window } = figures ?? WHOLE_RUN, packed = new Uint8Array(40);
  packed.set([Number(readsVersion3), Number(figures !== null)]);
  new BigUint64Array(packed.buffer, 8).set([from, until, backlog, window]);
  return packed;
}

// Copies bytes into the memory of an instance, and gives where they are.
/** @param {Exports} it @param {Uint8Array} bytes */
function placed(it, bytes) {
  const at = it.room(BigInt(bytes.length) + 1n);
  if (!at) throw new Error('There is no memory for the scenario.');
  new Uint8Array(it.memory.buffer, Number(at), bytes.length).set(bytes);
  return at;
}

// Calls an export of a compiled module with a choice, texts and script files. Gives the code, the bytes of the answer,
// and the milliseconds.
/** @param {WebAssembly.Module} compiled @param {'rehearse' | 'compare'} call @param {Choice} choice
 * @param {(string | Uint8Array)[]} texts @param {File[]} files */
export async function answered(compiled, call, choice, texts, files) {
  const { whole, lengths } = laidOut(files), parts = [...texts.map(encoded), whole];
  for (let wanted = ROOM; ;) {
    const { it, room, size } = await roomy(compiled, wanted), needed = placed(it, new Uint8Array(8));
    const chosen = call === 'rehearse' ? placed(it, packedChoice(choice)) : Number(choice.readsVersion3);
    const given = [...parts.flatMap(part => [placed(it, part), BigInt(part.length)]), placed(it, lengths)];
    const began = performance.now(), code = it[call](chosen, ...given, BigInt(files.length), room, size, needed);
    const took = performance.now() - began;
    if (code === NO_FILES) throw new Error('The script files were not handed over well.');
    const length = new DataView(it.memory.buffer).getBigUint64(Number(needed), true);
    if (code === NO_ROOM || code === NO_LINE) {
      if (wanted !== ROOM) throw new Error('There is no memory for the output.');
      wanted = length;
      continue;
    }
    const answer = new Uint8Array(it.memory.buffer, Number(room), code === NO_MEMORY ? 0 : Number(length));
    return { code, took, bytes: answer.slice() };
  }
}

// The line of a refusal.
/** @param {number} code @param {Uint8Array} bytes */
export const lineOf = (code, bytes) =>
  code === NO_MEMORY ? 'refused 34 Memory' : new TextDecoder().decode(bytes).trimEnd();

// What is said of an error: that memory is out, if it is what a browser says then.
/** @param {Error} error */
export function toldOf(error) {
  if (error instanceof WebAssembly.RuntimeError) return `The run was broken off: ${error.message}.`;
  const isMemory = /out of memory|alloc|array buffer|array length/i;
  return isMemory.test(error.message) ? `There was not enough memory for this run: ${error.message}.` : error.message;
}
