// @ts-check
// Changes of the text of a scenario: other numbers at their places, and other seeds.

import { PLACE, Scenario } from './scenario.js';

/** @typedef {import('./scenario.js').Item} Item */

const SEED_MOST = 2n ** 63n;

// The text with a value at these places, and where it has to be at the other one of a pair of bounds.
/** @param {string} text @param {string[]} places @param {number} value */
export function withValue(text, places, value) {
  const scenario = new Scenario(text), values = new Map(places.map(place => [place, value]));
  for (const place of places) {
    const isLow = place.endsWith('_min_ms');
    const pair = isLow ? place.replace(/_min_ms$/, '_max_ms') : place.replace(/_max_ms$/, '_min_ms');
    const other = pair === place ? null : nodeAt(scenario, pair);
    if (other && (isLow ? Number(other.value) < value : Number(other.value) > value)) values.set(pair, value);
  }
  return withNumbers(text, values);
}

// The text with numbers at their places.
/** @param {string} text @param {Map<string, number>} values */
function withNumbers(text, values) {
  const scenario = new Scenario(text);
  const edits = [...values].flatMap(([place, value]) => {
    const node = nodeAt(scenario, place);
    return node ? [{ from: node.from, to: node.to, value }] : [];
  }).sort((a, b) => b.from - a.from);
  return edits.reduce((made, { from, to, value }) => `${made.slice(0, from)}${value}${made.slice(to)}`, text);
}

/** @param {Scenario} scenario @param {string} place @returns {Item | undefined} */
function nodeAt(scenario, place) {
  const match = PLACE.exec(place);
  const table = match ? scenario.items(match[1])[Number(match[2])] : scenario.top;
  return table?.value.get(match ? match[3] : place);
}

// The text with the seed that comes so many behind its own.
/** @param {string} text @param {number} behind */
export function withSeedBehind(text, behind) {
  if (!behind) return text;
  const scenario = new Scenario(text), node = scenario.top.value.get('seed');
  const seed = ((node?.type === 'integer' ? node.value : 0n) + BigInt(behind)) % SEED_MOST;
  if (node) return `${text.slice(0, node.from)}${seed}${text.slice(node.to)}`;
  const mark = text.startsWith('\ufeff') ? 1 : 0;
  return `${text.slice(0, mark)}seed = ${seed}\n${text.slice(mark)}`;
}
