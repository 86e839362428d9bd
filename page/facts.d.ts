// What tools/page_text.py writes into the page as facts.js.

/** A key of a table, as tools/rehearse_tools/keys.py has it, with what the schema says of it. */
export interface Key {
  name: string;
  about: string;
  kind: string;
  low: number | null;
  high: number | null;
  default: number | string | boolean | null;
  words: string[] | null;
  queues: 'standard' | 'FIFO' | null;
  beside: string[];
  least: string | null;
  since: number;
  replaces: string[];
  /** What each number of a list may be: the least and the greatest. */
  items: [number, number] | null;
}

/** An example, with the question of its folder and the numbers that this varies, by their paths. */
export interface Example {
  folder: string;
  name: string;
  question: string;
  varies: string[];
  text: string;
  answer: string;
  version: number;
}

/** The keys of each kind of table, as `queue//1` and `actor/producer/2`. */
export const KEYS: Record<string, Key[]>;
/** What tools/rehearse_tools/explain.py says of names, and of lists and their items by their kinds. */
export const RULES: Record<'names' | 'lists' | 'forms' | 'rules', Record<string, string>>;
/** The kinds of actors. */
export const ACTORS: string[];
/** More messages than these that wait are a backlog. */
export const BACKLOG: number;
/** The lines that tools/summary prints of a queue, and the keys of those that are shares of what came in. */
export const LINES: { key: string; label: string; always: boolean; written: 'grouped' | 'duration' | 'hundredths' }[];
export const SHARES: string[];
/** The first record of a script. */
export const SCRIPT_HEADER: string;
export const EXAMPLES: Example[];
/** The example that is shown first, by its folder and its name. */
export const FIRST: string;
