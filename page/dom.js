// @ts-check
// Small makers of elements.

/** @param {string} id @returns {HTMLElement} */
export const byId = id => /** @type {HTMLElement} */ (document.getElementById(id));
/** @param {string} id */
export const inputById = id => /** @type {HTMLInputElement} */ (byId(id));
/** @param {string} id */
export const buttonById = id => /** @type {HTMLButtonElement} */ (byId(id));
/** @param {string} id */
export const selectById = id => /** @type {HTMLSelectElement} */ (byId(id));
/** @param {string} id */
export const detailsById = id => /** @type {HTMLDetailsElement} */ (byId(id));

/** @typedef {Node | string | null | undefined} Part */
/** @typedef {{ cells: string[], className?: string }} Row */

// An element with properties, attributes (`role`, `for` and those with a dash) and what it has in it.
/** @template {keyof HTMLElementTagNameMap} Name @param {Name} name @param {Record<string, unknown>} properties
 * @param {...Part} inside @returns {HTMLElementTagNameMap[Name]} */
export function element(name, properties = {}, ...inside) {
  const made = document.createElement(name);
  for (const [key, value] of Object.entries(properties)) {
    if (key === 'role' || key === 'for' || key === 'scope' || key === 'colspan' || key.includes('-')) {
      made.setAttribute(key, String(value));
    } else {
      Object.assign(made, { [key]: value });
    }
  }
  made.append(...inside.flatMap(it => it ?? []));
  return made;
}

// An element of SVG with attributes.
/** @template {keyof SVGElementTagNameMap} Name @param {Name} name @param {Record<string, unknown>} attributes
 * @param {...(Node | string)} inside @returns {SVGElementTagNameMap[Name]} */
export function drawn(name, attributes = {}, ...inside) {
  const made = document.createElementNS('http://www.w3.org/2000/svg', name);
  for (const [key, value] of Object.entries(attributes)) made.setAttribute(key, String(value));
  made.append(...inside);
  return made;
}

// A table of texts; the first cell of a row is its heading, and the others are numbers if `areNumbers`.
/** @param {string} caption @param {string[]} titles @param {Row[]} rows @param {boolean} areNumbers */
export function tableOf(caption, titles, rows, areNumbers = true) {
  const head = element('tr', {}, ...titles.map(title => element('th', { scope: 'col', textContent: title })));
  const body = rows.map(({ cells, className = '' }) => element('tr', { className },
    ...cells.map((cell, i) => i === 0 ? element('th', { scope: 'row', textContent: cell })
      : element('td', { className: areNumbers ? 'number' : '', textContent: cell }))));
  return element('table', {}, element('caption', { className: 'unseen', textContent: caption }),
    element('thead', {}, head), element('tbody', {}, ...body));
}

/** @param {string} name @param {BlobPart[]} parts @param {string} type */
export function saveAs(name, parts, type) {
  const address = URL.createObjectURL(new Blob(parts, { type }));
  element('a', { href: address, download: name }).click();
  setTimeout(() => URL.revokeObjectURL(address), 10000);
}

// Sets a text of an element if it is another one, so that a reader of screens hears of changes alone.
/** @param {Element} it @param {string} text */
export function setText(it, text) {
  if (it.textContent !== text) it.textContent = text;
}

// Counts what has been shown, for those who wait for it.
/** @param {string} what */
export function count(what) {
  document.body.dataset[what] = String(Number(document.body.dataset[what] ?? 0) + 1);
}
