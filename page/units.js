// @ts-check
// Numbers and times as people read them, as tools/summary writes them.

// A number to so many digits after the point; of two that are equally near, the even one.
/** @param {number} number @param {number} digits */
export function fixed(number, digits) {
  const scale = 10 ** digits, scaled = number * scale;
  const isTie = Number.isInteger(number * 1024) && Math.abs(scaled % 1) === 0.5;
  return (isTie ? 2 * Math.round(scaled / 2) / scale : number).toFixed(digits);
}

const decoder = new TextDecoder();
/** @param {Uint8Array} bytes @param {number} from @param {number} to */
export const textOf = (bytes, from, to) => decoder.decode(bytes.subarray(from, to));

/** @param {number | bigint | string} number */
export const grouped = number => String(number).replace(/\B(?=(\d{3})+(?!\d))/g, ',');
/** @param {number} number */
export const hundredths = number => {
  const [whole, part] = fixed(number, 2).split('.');
  return `${grouped(whole)}.${part}`;
};
// 1 row, 2 rows
/** @param {number} number @param {string} what */
export const several = (number, what) => `${grouped(number)} ${what}${number === 1 ? '' : 's'}`;

/** @typedef {{ at: number, text: string }} Tick */

// The times below which a duration is shown to a step, in milliseconds.
const STEPS = [[1e3, 1], [1e4, 10], [6e4, 100], [36e5, 1e3], [864e5, 6e4], [Infinity, 36e5]];

// A time in two units, or with three digits.
/** @param {number} milliseconds */
export function duration(milliseconds) {
  let rounded = 0;
  for (const [below, step] of STEPS) {
    rounded = Math.floor((milliseconds + Math.floor(step / 2)) / step) * step;
    if (rounded < below) break;
  }
  if (rounded < 1e3) return `${rounded} ms`;
  if (rounded < 6e4) return `${fixed(rounded / 1e3, rounded < 1e4 ? 2 : 1)} s`;
  const seconds = Math.floor(rounded / 1e3), minutes = Math.floor(seconds / 60), hours = Math.floor(minutes / 60);
  if (minutes < 60) return `${minutes} min ${seconds % 60} s`;
  if (hours < 24) return `${hours} h ${minutes % 60} min`;
  return `${Math.floor(hours / 24)} day${hours >= 48 ? 's' : ''} ${hours % 24} h`;
}

// A moment of a run by its clock, such as 0:01:02.003.
/** @param {number} milliseconds */
export function clock(milliseconds) {
  const two = (/** @type {number} */ number) => String(number).padStart(2, '0');
  const seconds = Math.floor(milliseconds / 1e3);
  const thousandths = String(milliseconds % 1e3).padStart(3, '0');
  return `${Math.floor(seconds / 3600)}:${two(Math.floor(seconds / 60) % 60)}:${two(seconds % 60)}.${thousandths}`;
}

// The milliseconds of a time such as 90s, 1.5h or 0:01:02.003, without a unit milliseconds; null if it is none.
/** @param {string} text @returns {number | null} */
export function momentOf(text) {
  /** @type {Record<string, number>} */
  const units = { ms: 1, s: 1e3, m: 6e4, min: 6e4, h: 36e5, d: 864e5 };
  const timed = /^(\d{1,6}):(\d\d):(\d\d(?:\.\d{1,3})?)$/.exec(text.trim());
  if (timed) return Math.round((Number(timed[1]) * 3600 + Number(timed[2]) * 60 + Number(timed[3])) * 1e3);
  const found = /^(\d{1,15}(?:\.\d{1,9})?) ?(ms|s|min|m|h|d)?$/.exec(text.trim());
  return found ? Math.round(Number(found[1]) * (found[2] ? units[found[2]] : 1)) : null;
}

// The nearest rank among numbers in ascending order; null if there are none.
/** @param {ArrayLike<number>} numbers @param {number} percent */
export const nearestRank = (numbers, percent) =>
  numbers.length ? numbers[Math.ceil(numbers.length * percent / 100) - 1] : null;

// The units of times on an axis, each with its milliseconds and how many of it a span has at least.
/** @type {[string, number, number][]} */
const AXIS_UNITS = [['days', 864e5, 3], ['h', 36e5, 3], ['min', 6e4, 3], ['s', 1e3, 1], ['ms', 1, 0]];
/** @type {Record<string, number[]>} */
const AXIS_STEPS = { s: [10, 15, 20, 30], min: [10, 15, 20, 30], h: [3, 6, 12, 24, 48] };

// The least step of 1, 2 or 5 times a power of ten, or of `steps`, of which a span has at most `most` whole.
/** @param {number} span @param {number} most @param {number[]} steps */
function niceStep(span, most, steps = []) {
  const power = 10 ** (Math.floor(Math.log10(span / most)) - 1);
  const tens = [5, 10, 20, 50, 100].map(factor => factor * power);
  const fitting = [...tens, ...steps].sort((a, b) => a - b).filter(step => Math.floor(span / step + 1e-9) <= most);
  const inUnit = fitting.find(step => steps.includes(step));
  return inUnit !== undefined && fitting[0] >= Math.min(...steps) ? inUnit : fitting[0];
}

// Where an axis has its ticks, with the text of each, and the unit of times.
/** @param {number} low @param {number} high @param {number} most @param {boolean} [isTime]
 * @returns {{ ticks: Tick[], unit: string }} */
export function ticksOf(low, high, most, isTime) {
  const [unit, size] = isTime
    ? AXIS_UNITS.find(([, of, least]) => high - low >= least * of) ?? AXIS_UNITS[AXIS_UNITS.length - 1] : ['', 1];
  let step = niceStep((high - low) / size, most, AXIS_STEPS[unit]);
  if (unit === '' || unit === 'ms') step = Math.max(1, step);
  const ticks = [], digits = step % 1 ? Math.max(0, -Math.floor(Math.log10(step) + 1e-9)) : 0;
  for (let i = Math.ceil(low / size / step - 1e-9); i * step * size <= high + 1e-6; i++) {
    const [whole, part] = (i * step).toFixed(digits).split('.');
    ticks.push({ at: i * step * size, text: part ? `${grouped(whole)}.${part}` : grouped(whole) });
  }
  return { ticks, unit };
}
