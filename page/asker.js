// @ts-check
// A worker with the module in it, which answers questions one after the other.

/** @typedef {import('./worker.js').Question} Question */
/** @typedef {import('./worker.js').Answer} Answer */

export class Asker {
  // `failed` is called with why, if the worker itself fails.
  /** @param {(why: string) => void} failed */
  constructor(failed) {
    this.failed = failed;
    /** @type {Map<number, (answer: Answer) => void>} */
    this.answers = new Map();
    this.count = 0;
    /** @type {Worker | null} */
    this.worker = null;
  }

  // Asks the worker, which is made if there is none.
  /** @param {Question} question @returns {Promise<Answer>} */
  async ask(question) {
    if (!this.worker) {
      const worker = this.worker = new Worker(workerAddress());
      worker.onmessage = ({ data }) => {
        this.answers.get(data.id)?.(data);
        this.answers.delete(data.id);
      };
      worker.onerror = event => this.failed(event.message || 'the run was broken off');
      const module = await moduleBytes();
      // it may have been ended meanwhile
      if (this.worker !== worker) return /** @type {Answer} */ ({ error: 'stopped' });
      this.post({ module });
    }
    return this.post(question);
  }

  /** @param {Question} question @returns {Promise<Answer>} */
  post(question) {
    const id = ++this.count;
    this.worker?.postMessage({ id, ...question });
    return new Promise(resolve => this.answers.set(id, resolve));
  }

  // Ends the worker with what it does.
  end() {
    this.worker?.terminate();
    this.worker = null;
    this.answers.clear();
  }
}

/** @param {string} id */
const partOf = id => (document.getElementById(id)?.textContent ?? '').trim();

/** @type {string | null} */
let address = null;
const workerAddress = () =>
  address ??= URL.createObjectURL(new Blob([partOf('worker')], { type: 'text/javascript' }));

/** @param {Uint8Array} bytes @param {GenericTransformStream} through */
export const streamed = async (bytes, through) =>
  new Uint8Array(await new Response(new Blob([bytes]).stream().pipeThrough(through)).arrayBuffer());
/** @param {string} letters */
export const bytesIn = letters => Uint8Array.from(letters, letter => letter.charCodeAt(0));
/** @param {string} text */
export const bytesOf = text => bytesIn(atob(text));

/** @type {Promise<Uint8Array> | null} */
let unpacked = null;
const moduleBytes = () => unpacked ??= streamed(bytesOf(partOf('module')), new DecompressionStream('gzip'));
