// @ts-check
// Choices of the reader that the browser keeps, where it keeps any for this page.

const KEPT_PREFIX = 'sqs_rehearse.';

// What was kept under a name; null if nothing was, or nothing can be.
/** @param {string} name */
export function kept(name) {
  try {
    return localStorage.getItem(KEPT_PREFIX + name);
  } catch {
    return null;
  }
}

/** @param {string} name @param {string} value */
export function keepChoice(name, value) {
  try {
    localStorage.setItem(KEPT_PREFIX + name, value);
  } catch {
    // this browser keeps nothing for a page from a disk
  }
}
