#!/usr/bin/env node
// Puts real map files that were cut, flipped or spliced to each command that reads maps. README.md beside this file says
// how, and what is asked of each answer.
//
//   node hostile.js [--program PROGRAM] [--changes N] [--seed N] [FILE...]
'use strict';

const fs = require('fs');
const os = require('os');
const path = require('path');
const { spawnSync } = require('child_process');
const { parseArgs } = require('util');
const { Worker, isMainThread, parentPort, workerData } = require('worker_threads');
const { chanceFrom } = require('../vectors/chance.js');
const { FOUND, mapsIn, mapsOfPackage } = require('../compare-maps/files.js');

const EXAMPLES = path.join(__dirname, '..', '..', 'examples');
const PACKAGE = 'node-babel7-debug';
const JOBS = 2;
const OF_PACKAGE = 6;
const MOST_BYTES = 60000;
const SECONDS = 20;
const MOST_OUTPUT = 1 << 28;
const SHOWN = 5;
const COMMANDS = ['check', 'lookup', 'show', 'compose', 'rewrite'];
const KINDS = ['cut', 'flipped', 'spliced'];
const URL = 'https://ex.test/app.js';

// What is put in where a file is spliced, beside bytes of the maps and random bytes.
const PIECES = [
  '[', ']', '{', '}', '"', ',', ':', '\\', '\\u', '\\ud800', '\n', '\0', '\x7f', '\xff', '\xef\xbb\xbf', ')]}\'\n',
  'null', 'true', '-1', '0.5', '1e9', '3', '2147483647', '2147483648', '4294967296', '18446744073709551616',
  '"sections":[', '"offset":{"line":0,"column":0},', '"map":{', '"version":3,', '"sources":[],', '"mappings":"",',
  '"ignoreList":[0],', '"sourceRoot":"//",', ';', ';;;;', 'AAAA', 'A,A', 'D', '+/////D', 'gggggggA', 'B', '!',
];

// ---------------------------------------------------------------------------------------------
// Changed files. All that is chosen is chosen by `by`, so that a seed gives the same files at each run.
// ---------------------------------------------------------------------------------------------

function changed(bytes, others, kind, by) {
  if (kind === 'cut') return bytes.subarray(0, by.below(bytes.length));
  if (kind === 'flipped') return flipped(bytes, by);
  return spliced(bytes, others, by);
}

function flipped(bytes, by) {
  const copy = Buffer.from(bytes);
  for (let times = 1 + by.below(4); times > 0; times -= 1) {
    copy[by.below(copy.length)] ^= 1 << by.below(8);
  }
  return copy;
}

function spliced(bytes, others, by) {
  const place = by.below(bytes.length);
  const end = Math.min(bytes.length, place + by.below(40));
  return Buffer.concat([bytes.subarray(0, place), piece(others, by), bytes.subarray(end)]);
}

function piece(others, by) {
  switch (by.below(3)) {
    case 0:
      return Buffer.from(by.pick(PIECES), 'latin1');
    case 1: {
      const other = by.pick(others);
      const place = by.below(other.length);
      return other.subarray(place, place + by.below(200));
    }
    default:
      return Buffer.from(Array.from({ length: by.below(8) }, () => by.below(256)));
  }
}

// ---------------------------------------------------------------------------------------------
// What may be answered.
// ---------------------------------------------------------------------------------------------

// One regular map in one line.
function isWrittenMap(text) {
  if (!/^[^\n]*\n$/.test(text)) return false;
  try {
    return JSON.parse(text).version === 3;
  } catch {
    return false;
  }
}

const ANSWERS = {
  check: (text) => /^ok sections \d+ sources \d+ names \d+ segments \d+ lines \d+ checkpoints \d+\n$/.test(text),
  lookup: (text) => text === 'none\n' || text === 'unmapped\n' || /^[^\n]*:\d+:\d+[^\n]*\n([^\n]*\n *\^\n)?$/.test(text),
  show: isWrittenMap,
  compose: isWrittenMap,
  rewrite: (text) => /^Error: x\n {4}at f \([^\n]*:\d+:\d+\)\n {4}at https:\/\/ex.test\/x.js:1:1\n$/.test(text),
};

// Why a map is refused, behind its path.
const REFUSAL =
  /^M(1 TooLarge|2 NotJson|3 NotObject|4 Version|5 Sections|6 SectionOffset \d+|7 Nested \d+|8 Sources|9 Names|10 SourcesContent|11 IgnoreList|12 FileOrRoot|13 Mappings|14 Text \d+ F\d+ [A-Za-z]+ line \d+ byte \d+|15 Build B[234] [A-Za-z]+ \d+|16 Url)$/;

// What a command may say beside an answer: of a map that was changed, that it may be that of another file.
const WARNING = /^(the inner map does not fit the content that the outer one has of [^\n]*: swapped\?\n)+$/;

// What else a command may be refused for, whatever its maps are.
const OTHER_REFUSALS = {
  check: [],
  lookup: [],
  show: ['O1 TextTooLong'],
  compose: ['C1 SourceIndex', 'C2 TooLarge'],
  rewrite: [],
};

// The refusal that a line of standard error has of this file, or what is wrong with it.
function refusalIn(name, reported, file) {
  const line = /^refused: ([^\n]*)\n$/.exec(reported);
  if (line === null) return { wrong: `standard error has ${JSON.stringify(reported)}` };
  if (OTHER_REFUSALS[name].includes(line[1])) return { refusal: null };
  const front = `${file}: `;
  if (!line[1].startsWith(front)) return { wrong: `another file is reported: ${line[1]}` };
  const refusal = line[1].slice(front.length);
  return REFUSAL.test(refusal) ? { refusal } : { wrong: `no refusal of a map: ${refusal}` };
}

// What is wrong with how a run ended, or the refusal of its map, or null where it has none.
function judged(name, run, file) {
  if (run.error) return { wrong: String(run.error) };
  if (run.signal !== null) return { wrong: `ended by ${run.signal}` };
  const [written, reported] = [run.stdout.toString(), run.stderr.toString()];
  if (run.status === 0) {
    if (reported !== '' && !(name === 'compose' && WARNING.test(reported))) return { wrong: `status 0, and standard error has ${JSON.stringify(reported)}` };
    if (!ANSWERS[name](written)) return { wrong: `standard output has ${JSON.stringify(written.slice(0, 200))}` };
    return { refusal: null };
  }
  if (run.status !== 1) return { wrong: `status ${run.status} ${JSON.stringify(reported)}` };
  if (written !== '') return { wrong: `status 1, and standard output has ${JSON.stringify(written.slice(0, 200))}` };
  return refusalIn(name, reported, file);
}

// ---------------------------------------------------------------------------------------------
// A worker: all changes of one map after another.
// ---------------------------------------------------------------------------------------------

function argumentsOf(name, file, whole, isOuter, by) {
  const [line, column] = [String(1 + by.below(60)), String(1 + by.below(200))];
  switch (name) {
    case 'lookup':
      return [name, file, line, column];
    case 'compose':
      return isOuter ? [name, file, '0', whole] : [name, whole, '0', file];
    case 'rewrite':
      return [name, `${URL}=${file}`];
    default:
      return [name, file];
  }
}

function traceBy(by) {
  return `Error: x\n    at f (${URL}:${1 + by.below(60)}:${1 + by.below(200)})\n    at https://ex.test/x.js:1:1\n`;
}

// A file is standard input, since a refused map leaves it unread.
function runOn(program, words, text, trace) {
  fs.writeFileSync(trace, text);
  const input = fs.openSync(trace);
  const stdio = [input, 'pipe', 'pipe'];
  const run = spawnSync(program, words, { stdio, timeout: SECONDS * 1000, maxBuffer: MOST_OUTPUT });
  fs.closeSync(input);
  return run;
}

function runAll(program, folder, map, others, seed, changes) {
  const by = chanceFrom(seed);
  const bytes = fs.readFileSync(map);
  const [file, whole, trace] = ['changed.map', 'whole.map', 'trace'].map((name) => path.join(folder, name));
  fs.writeFileSync(whole, bytes);
  const count = { statuses: {}, refusals: {}, wrong: [] };
  for (let i = 0; i < changes; i += 1) {
    const kind = KINDS[i % KINDS.length];
    const text = changed(bytes, others, kind, by);
    fs.writeFileSync(file, text);
    const refusals = [];
    for (const name of COMMANDS) {
      const words = argumentsOf(name, file, whole, i % 2 === 0, by);
      const run = runOn(program, words, name === 'rewrite' ? traceBy(by) : '', trace);
      const { wrong, refusal } = judged(name, run, file);
      const of = `${kind} ${name} ${run.status}`;
      count.statuses[of] = (count.statuses[of] ?? 0) + 1;
      if (wrong !== undefined) count.wrong.push({ change: i, words, wrong });
      refusals.push(refusal);
    }
    const code = (refusals[0] ?? 'accepted').split(' ')[0];
    count.refusals[code] = (count.refusals[code] ?? 0) + 1;
    // One file is refused by all for one reason, or by none.
    if (new Set(refusals).size > 1) {
      count.wrong.push({ change: i, words: COMMANDS, wrong: `refused as ${refusals}` });
    }
    if (count.wrong.length > 0) {
      count.wrong.forEach((entry) => Object.assign(entry, { map, kind, kept: keep(text) }));
      break;
    }
  }
  return count;
}

// A changed file that was answered wrongly, kept to be looked at. The other changes of its map are left out.
function keep(text) {
  const kept = path.join(fs.mkdtempSync(path.join(os.tmpdir(), 'smap-wrong-')), 'changed.map');
  fs.writeFileSync(kept, text);
  return kept;
}

function work() {
  const { program, maps, seed, changes } = workerData;
  const folder = fs.mkdtempSync(path.join(os.tmpdir(), 'smap-hostile-'));
  const others = maps.map((map) => fs.readFileSync(map));
  parentPort.on('message', (place) => {
    if (place === null) {
      fs.rmSync(folder, { recursive: true });
      parentPort.close();
      return;
    }
    parentPort.postMessage({ place, count: runAll(program, folder, maps[place], others, seed + place, changes) });
  });
}

// ---------------------------------------------------------------------------------------------
// The whole.
// ---------------------------------------------------------------------------------------------

function usage(what) {
  console.error(what);
  console.error('usage: hostile.js [--program PROGRAM] [--changes N] [--seed N] [FILE...]');
  process.exit(2);
}

// The map files of the examples, and some of a package, spread by their sizes.
function usualMaps() {
  const few = mapsOfPackage(PACKAGE)
    .map((map) => ({ map, bytes: fs.statSync(map).size }))
    .filter(({ bytes }) => bytes <= MOST_BYTES)
    .sort((a, b) => a.bytes - b.bytes || (a.map < b.map ? -1 : 1));
  const spread = Array.from({ length: OF_PACKAGE }, (_, i) => few[Math.floor(((i + 1) * few.length) / OF_PACKAGE) - 1]);
  return [...mapsIn(EXAMPLES), ...spread.map(({ map }) => map)];
}

function options() {
  const known = {
    program: { type: 'string', default: FOUND },
    changes: { type: 'string', default: '2000' },
    seed: { type: 'string', default: '24' },
  };
  let read;
  try {
    read = parseArgs({ options: known, allowPositionals: true });
  } catch (error) {
    usage(error.message);
  }
  const { program, changes, seed } = read.values;
  if (![changes, seed].every((word) => /^[1-9]\d*$/.test(word))) usage('--changes and --seed take a number from 1');
  if (!fs.existsSync(program)) usage(`there is no ${program}; ./smap --help finds the program`);
  let maps = read.positionals;
  try {
    if (maps.length === 0) maps = usualMaps();
  } catch (error) {
    usage(error.message);
  }
  return { program, changes: Number(changes), seed: Number(seed), maps };
}

function addTo(sums, counts) {
  for (const [key, count] of Object.entries(counts)) sums[key] = (sums[key] ?? 0) + count;
}

function listed(counts) {
  return Object.entries(counts)
    .sort(([a], [b]) => (a < b ? -1 : 1))
    .map(([key, count]) => `${key}: ${count}`)
    .join(', ');
}

function report(maps, sums) {
  for (const name of COMMANDS) {
    for (const kind of KINDS) {
      const own = Object.entries(sums.statuses).filter(([key]) => key.startsWith(`${kind} ${name} `));
      console.log(`${name}, ${kind}: ${listed(Object.fromEntries(own.map(([key, count]) => [`status ${key.split(' ')[2]}`, count])))}`);
    }
  }
  console.log(`files by their refusal: ${listed(sums.refusals)}`);
  for (const { map, change, kind, words, wrong, kept } of sums.wrong.slice(0, SHOWN)) {
    console.log(`WRONG ${map} change ${change}, ${kind}, kept as ${kept}: ${words.join(' ')}: ${wrong}`);
  }
  const files = Object.values(sums.refusals).reduce((sum, count) => sum + count, 0);
  console.log(`${maps.length} maps, ${files} changed files, ${files * COMMANDS.length} runs, ${sums.wrong.length} wrong`);
}

function main() {
  const { program, changes, seed, maps } = options();
  const sums = { statuses: {}, refusals: {}, wrong: [] };
  let [next, done] = [0, 0];
  const data = { workerData: { program: path.resolve(program), maps, seed, changes } };
  for (let job = 0; job < Math.min(JOBS, maps.length); job += 1) {
    const worker = new Worker(__filename, data);
    const give = () => worker.postMessage(next < maps.length ? next++ : null);
    worker.on('error', (error) => {
      console.error(error);
      process.exit(2);
    });
    worker.on('message', ({ place, count }) => {
      addTo(sums.statuses, count.statuses);
      addTo(sums.refusals, count.refusals);
      sums.wrong.push(...count.wrong);
      console.log(`${maps[place]}: ${count.wrong.length === 0 ? 'none wrong' : `${count.wrong.length} wrong`}`);
      done += 1;
      if (done === maps.length) {
        report(maps, sums);
        process.exitCode = sums.wrong.length === 0 ? 0 : 1;
      }
      give();
    });
    give();
  }
}

if (isMainThread) main();
else work();
