#!/usr/bin/env node
// The program for machines that do not run that of dist/: the proved module of dist/playground.html, run by Node 18 or
// later. It has the words, the outputs and the statuses of docs/FORMATS.md. A run has one thread; how it is to be split
// is read, and changes nothing. ./sqs_rehearse calls it.
import { createHash } from 'node:crypto';
import fs from 'node:fs';
import path from 'node:path';
import { fileURLToPath } from 'node:url';
import { gunzipSync } from 'node:zlib';

import { Scenario, said } from './scenario.js';
import { WHOLE_RUN, answered, lineOf } from './simulator.js';

const TOP = path.dirname(path.dirname(fs.realpathSync(fileURLToPath(import.meta.url))));
const PAGE = path.join(TOP, 'dist', 'playground.html');
const USAGE = `Usage: sqs_rehearse run [--log FILE] [--scripts DIR] [--v3] [--figures] [--from MS] [--to MS] [--backlog N]
                        [--window-figures MS] [--quiet] [SCENARIO]
       sqs_rehearse check [--scripts DIR] [--v3] [SCENARIO]
       sqs_rehearse compare [--scripts DIR] [--v3] FIRST SECOND

Rehearses a scenario, checks one, or compares the reports of two, by the module of the page. docs/FORMATS.md has what
goes in and what comes out, and the statuses. --preview is the former name of --v3.
`;
// The options of each command: those with a value that is a text, with one that is a number, and those without.
const SCRIPTS = { texts: ['scripts'], numbers: [], flags: ['v3', 'preview'], least: 0, most: 1 };
const COMMANDS = { check: SCRIPTS, compare: { ...SCRIPTS, least: 2, most: 2 },
  run: { ...SCRIPTS, texts: ['scripts', 'log', 'map'],
    numbers: ['window', 'parts', 'workers', 'from', 'to', 'backlog', 'window-figures'],
    flags: ['figures', 'v3', 'preview', 'quiet'] } };
// What asks for figures.
const OF_FIGURES = ['figures', 'from', 'to', 'backlog', 'window-figures'];
const NUMBER_MOST = 2n ** 64n - 1n;
const DONE = 0, SECOND_REFUSED = 6;
const IN_RUN = 30, OF_WRITING = 36;
// Where the log ends: the header of the final queues.
const FINALS = '\nfinal,queue,message,';

// What ends the program: a status, and a line on standard error.
class Stop extends Error {
  constructor(status, line) {
    super(line);
    this.status = status;
  }
}

// A text with its control characters escaped, and its lines cut, for a terminal.
const seen = text => text.replace(/[^\P{C}\n\t]|[\u2028\u2029]/gu, letter =>
  `\\u${letter.codePointAt(0).toString(16).padStart(4, '0')}`).replace(/^(.{1000}).+$/gmu, '$1…');

// Writes all bytes to a file that is open.
function write(file, bytes) {
  const isTerminal = process[{ 1: 'stdout', 2: 'stderr' }[file]]?.isTTY;
  const left = isTerminal ? Buffer.from(seen(Buffer.from(bytes).toString())) : bytes;
  for (let at = 0; at < left.length;) {
    try {
      at += fs.writeSync(file, left, at);
    } catch (error) {
      if (error.code !== 'EAGAIN') throw new Stop(4, 'refused 36 Write');
    }
  }
}

function read(name) {
  try {
    return fs.readFileSync(name === '-' ? 0 : name);
  } catch {
    throw new Stop(1, `cannot read ${name}`);
  }
}

const sumOf = bytes => createHash('sha256').update(bytes).digest('hex');

// The paths of the files of Rattle below a folder.
function sourcesIn(folder) {
  if (!fs.existsSync(path.join(TOP, folder))) return [];
  return fs.readdirSync(path.join(TOP, folder), { withFileTypes: true }).flatMap(entry => {
    const name = `${folder}/${entry.name}`;
    return entry.isDirectory() ? sourcesIn(name) : entry.isFile() && /\.(rt|antt)$/.test(name) ? [name] : [];
  });
}

const inByteOrder = texts => texts.map(text => Buffer.from(text)).sort(Buffer.compare).map(String);

// The checksum of the lines of tools/sources.
function sumOfSources() {
  const lines = fs.readFileSync(path.join(TOP, 'crates.txt'), 'utf8').split('\n')
    .map(line => line.replace(/#.*/, '')).filter(line => line.includes(':'));
  const named = new Map(lines.map(line => [line.split(':')[0].trim().split(/\s+/)[0], line]));
  const added = new Set();
  const add = name => {
    if (!named.has(name) || added.has(name)) return;
    added.add(name);
    named.get(name).split(':')[1].split(/\s+/).forEach(add);
  };
  add('sqs_rehearse');
  const folders = [...added].flatMap(name => ['src', 'specs', 'proofs'].map(part => `crates/${name}/${part}`));
  const sums = inByteOrder(folders.flatMap(sourcesIn))
    .map(name => `${sumOf(fs.readFileSync(path.join(TOP, name)))}  ${name}`);
  return sumOf([...inByteOrder([...added].map(name => named.get(name))), ...sums].map(line => `${line}\n`).join(''));
}

// The page, if dist/manifest names these sources, and this page if it names one.
function checkedPage() {
  const manifest = new Map(fs.readFileSync(path.join(TOP, 'dist', 'manifest'), 'utf8').split('\n')
    .map(line => [line.split(' ')[0], line.slice(line.indexOf(' ') + 1)]));
  const page = fs.readFileSync(PAGE);
  if (manifest.get('sources') !== sumOfSources()) {
    throw new Stop(2, 'sqs_rehearse: dist/ has the page of other sources: the program itself is built on Linux on '
      + 'x86-64');
  }
  if (manifest.has('page') && manifest.get('page') !== sumOf(page)) {
    throw new Stop(2, 'sqs_rehearse: dist/playground.html is damaged: it is not the page that dist/manifest names');
  }
  return page.toString();
}

// The module of the page, compiled.
async function simulator() {
  const [, packed] = /<script type="text\/plain" id="module">([^<]*)/.exec(checkedPage());
  return WebAssembly.compile(gunzipSync(Buffer.from(packed, 'base64')));
}

const isNumber = text => /^\+?[0-9]+$/.test(text) && BigInt(text.replace('+', '')) <= NUMBER_MOST;

// The words of a command by the names of its options, and those that are no options as `paths`.
function optionsOf(command, words) {
  const { texts, numbers, flags, least, most } = COMMANDS[command], options = { paths: [], scripts: '.' };
  const usage = line => new Stop(2, `error: ${line}\n\n${USAGE.trimEnd()}`);
  for (let at = 0, isAtEnd = false; at < words.length; at++) {
    const [, name, , value] = isAtEnd ? [] : /^--([a-z][a-z0-9-]*)(=([^]*))?$/.exec(words[at]) ?? [];
    if (words[at] === '--' && !isAtEnd) isAtEnd = true;
    else if (!name && (isAtEnd || !/^-./.test(words[at]))) options.paths.push(words[at]);
    else if (flags.includes(name) && value === undefined) options[name] = true;
    else if (!texts.includes(name) && !numbers.includes(name)) throw usage(`unexpected argument '${words[at]}' found`);
    else if ((options[name] = value ?? words[++at]) === undefined) throw usage(`a value is required for '--${name}'`);
    else if (numbers.includes(name) && !isNumber(options[name])) throw usage(`'--${name}' takes a number`);
  }
  if (options.paths.length < least || options.paths.length > most) throw usage(`${command} takes other words`);
  return options;
}

// Whether the options ask for version 3 of scenarios: by --v3, or by its former name.
const asksForVersion3 = ({ v3 = false, preview = false }) => v3 || preview;

// What is wanted of figures by the options of a run; null if it asks for none.
function wantedBy(options) {
  if (OF_FIGURES.every(name => options[name] === undefined)) return null;
  const given = (name, other) => options[name] === undefined ? other : BigInt(options[name].replace('+', ''));
  const last = given('to', NUMBER_MOST);
  return { from: given('from', WHOLE_RUN.from), until: last < NUMBER_MOST ? last + 1n : last,
    backlog: given('backlog', WHOLE_RUN.backlog), window: given('window-figures', WHOLE_RUN.window) };
}

// The script files that scenarios name, as far as they can be read.
function filesOf(texts, folder) {
  const actors = texts.flatMap(text => new Scenario(text.toString()).items('actor'));
  const names = new Set(actors.map(actor => said(actor, 'script')).filter(name => typeof name === 'string'));
  return [...names].flatMap(name => {
    try {
      return /[/\0]/.test(name) ? [] : [{ name, bytes: fs.readFileSync(path.join(folder, name)) }];
    } catch {
      return [];
    }
  });
}

// The line of a refusal, and its status.
function refusal(code, bytes) {
  const line = lineOf(code, bytes);
  const number = Number(line.split(' ')[1]);
  return new Stop(number < IN_RUN ? 1 : number < OF_WRITING ? 3 : 4, line);
}

// The bytes of a run, or why it is refused. Version 3 is read only if it is asked for.
async function ran(compiled, text, files, readsVersion3, figures = null) {
  const { code, bytes } = await answered(compiled, 'rehearse', { readsVersion3, figures }, [text], files);
  if (code !== DONE) throw refusal(code, bytes);
  return Buffer.from(bytes.buffer, bytes.byteOffset, bytes.length);
}

async function run(compiled, { paths: [name = '-'], scripts, log, ...options }) {
  const text = read(name), files = filesOf([text], scripts);
  const whole = await ran(compiled, text, files, asksForVersion3(options), wantedBy(options));
  if (log === undefined) return write(1, whole);
  let file;
  try {
    file = fs.openSync(log, 'w');
  } catch {
    throw new Stop(4, 'refused 36 Write');
  }
  const end = whole.indexOf(FINALS) + 1;
  write(file, whole.subarray(0, end));
  return write(1, whole.subarray(end));
}

// The least latency of a scenario that is valid: of its ways from queue to queue, or past the horizon.
function leastOf(text) {
  const scenario = new Scenario(text);
  const ways = [...scenario.items('queue').filter(queue => said(queue, 'dead_letter') !== undefined),
    ...scenario.items('task'), ...scenario.items('actor').filter(actor => said(actor, 'forward') !== undefined)];
  const latencies = ways.map(way => said(way, 'latency_min_ms') ?? said(way, 'latency_ms')).map(it => it ?? 1n);
  return latencies.length ? latencies.reduce((a, b) => b < a ? b : a) : said(scenario.top, 'horizon') + 1n;
}

async function check(compiled, { paths: [name = '-'], scripts, ...options }) {
  const text = read(name);
  try {
    await ran(compiled, text, filesOf([text], scripts), asksForVersion3(options));
  } catch (error) {
    // what a run alone is refused for is no fault of the scenario
    if (!(error instanceof Stop) || error.status === 1) throw error;
  }
  const scenario = new Scenario(text.toString());
  // consumers of version 3 may have copies
  const copiesOf = items => items.reduce((count, item) => count + Number(said(item, 'copies') ?? 1), 0);
  const counts = ['queue', 'actor', 'task'].map(of => `${of}s=${copiesOf(scenario.items(of))}`);
  write(1, Buffer.from(`ok ${counts.join(' ')} least=${leastOf(text.toString())}\n`));
}

async function compare(compiled, { paths, scripts, ...options }) {
  const first = read(paths[0]), readsVersion3 = asksForVersion3(options);
  let second;
  try {
    second = read(paths[1]);
  } catch (error) {
    await ran(compiled, first, filesOf([first], scripts), readsVersion3);
    throw error;
  }
  const texts = [first, second];
  const { code, bytes } = await answered(compiled, 'compare', { readsVersion3 }, texts, filesOf(texts, scripts));
  if (code !== DONE) throw refusal(code === SECOND_REFUSED ? 1 : code, bytes);
  write(1, bytes);
}

async function main([command, ...words]) {
  if (['--help', '-h', 'help'].includes(command) || words.some(word => ['--help', '-h'].includes(word))) {
    return write(1, Buffer.from(USAGE));
  }
  if (!Object.hasOwn(COMMANDS, command ?? '')) throw new Stop(2, USAGE.trimEnd());
  const options = optionsOf(command, words);
  return { run, check, compare }[command](await simulator(), options);
}

main(process.argv.slice(2)).catch(error => {
  try {
    const isTold = error instanceof Stop;
    const line = isTold ? error.message : `sqs_rehearse: the page's module does not run: ${error.message}`;
    write(2, Buffer.from(`${line}\n`));
  } catch {
    // there is no standard error
  }
  process.exitCode = error instanceof Stop ? error.status : 2;
});
