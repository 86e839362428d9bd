// @ts-check
// The link to the scenarios of the page, after the # of its address: a digit for its form, and the texts as JSON,
// compressed; with script files { texts, files }, each file a list of its name and its bytes. Form 2 has a checksum, by
// which any damage shows. Form 1, of earlier pages, has none. What follows the # never leaves the browser.

import { bytesIn, bytesOf, streamed } from './asker.js';

/** @typedef {{ name: string, bytes: Uint8Array }} File */

/** @type {Record<string, string>} */
const FORMS = { 1: 'deflate-raw', 2: 'deflate' }, FORM = 2;
// The longest link that is made; longer ones are cut by too many programs.
const LINK_MOST = 30000;
// So many bytes a link holds at most. What is handed to be unpacked is of so few bytes that it gives no more at once.
const HELD_MOST = 1e6, PIECE = 512;
const LINK_FAULTS = { damaged: 'This link is cut or damaged: what it held cannot be shown.',
  later: 'This link is of a later version of the page: what it holds cannot be shown.',
  large: 'This link holds more than 1 MB, which this page does not unpack: what it holds cannot be shown.' };

// Bytes as a text with a character for each.
/** @param {Uint8Array} bytes */
function lettersOf(bytes) {
  let letters = '';
  for (const byte of bytes) letters += String.fromCharCode(byte);
  return letters;
}

// A link to texts and script files; null if it would be too long, or hold too much to be opened.
/** @param {string[]} texts @param {File[]} files */
export async function linkOf(texts, files) {
  const held = texts.map(text => text.length).concat(files.map(({ bytes }) => bytes.length));
  if (held.reduce((a, b) => a + b, 0) > HELD_MOST) return null;
  const what = files.length ? { texts, files: files.map(({ name, bytes }) => [name, lettersOf(bytes)]) } : texts;
  const json = new TextEncoder().encode(JSON.stringify(what));
  if (json.length > HELD_MOST) return null;
  const bytes = await streamed(json, new CompressionStream(FORMS[FORM]));
  const letters = btoa(lettersOf(bytes)).replaceAll('+', '-').replaceAll('/', '_').replace(/=+$/, '');
  return letters.length + 2 > LINK_MOST ? null : `#${FORM}${letters}`;
}

// What compressed bytes hold; null past HELD_MOST, where nothing more is unpacked.
/** @param {Uint8Array} bytes @param {string} form */
async function unpackedOf(bytes, form) {
  let at = 0, length = 0;
  const pieces = new ReadableStream({ pull(controller) {
    if (at < bytes.length) controller.enqueue(bytes.slice(at, at + PIECE));
    else controller.close();
    at += PIECE;
  } }, { highWaterMark: 0 });
  const reader = pieces.pipeThrough(new DecompressionStream(form)).getReader();
  /** @type {Uint8Array[]} */
  const parts = [];
  for (let next = await reader.read(); !next.done; next = await reader.read()) {
    length += next.value.length;
    if (length > HELD_MOST) {
      await reader.cancel();
      return null;
    }
    parts.push(next.value);
  }
  return new Uint8Array(await new Blob(parts).arrayBuffer());
}

/** @param {unknown} it @returns {it is string[]} */
const areTexts = it => Array.isArray(it) && it.every(text => typeof text === 'string');
/** @param {unknown} it @returns {it is [string, string][]} */
const areFiles = it => Array.isArray(it) && it.every(file => areTexts(file) && file.length === 2);

// The texts and the script files of a link; or its `fault`, as a sentence.
/** @param {string} link
 * @returns {Promise<{ fault: string, texts?: undefined, files?: undefined }
 *   | { fault?: undefined, texts: string[], files: File[] }>} */
export async function linkedIn(link) {
  const form = link[1];
  if (!/^#[0-9]/.test(link)) return { fault: LINK_FAULTS.damaged };
  if (!FORMS[form]) return { fault: LINK_FAULTS.later };
  try {
    const bytes = await unpackedOf(bytesOf(link.slice(2).replaceAll('-', '+').replaceAll('_', '/')), FORMS[form]);
    if (!bytes) return { fault: LINK_FAULTS.large };
    const what = JSON.parse(new TextDecoder('utf-8', { fatal: true }).decode(bytes));
    const { texts, files } = Array.isArray(what) ? { texts: what, files: [] } : what ?? {};
    if (!areTexts(texts) || ![1, 2].includes(texts.length) || !areFiles(files)) return { fault: LINK_FAULTS.later };
    return { texts, files: files.map(([name, letters]) => ({ name, bytes: bytesIn(letters) })) };
  } catch {
    return { fault: LINK_FAULTS.damaged };
  }
}
