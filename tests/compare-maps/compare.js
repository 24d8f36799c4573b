#!/usr/bin/env node
// Compares `smap check` and `smap lookup` with other people's decoder, over the map files of some
// packages. README.md beside this file says how.
//
//   node compare.js [--program PROGRAM] [--jobs N] [--most N | --all] [--after] [--count] [FILE...]
//
// No expected line is made from smap's own output.
'use strict';

const fs = require('fs');
const { spawn, spawnSync } = require('child_process');
const { parseArgs } = require('util');
const { KINDS, checked } = require('../vectors/checker.js');
const { excerptOf } = require('../vectors/excerpt.js');
const { linesOf, printedLine, spread } = require('../vectors/lookup.js');
const { FOUND, mapsOfPackages } = require('./files.js');

const MOST_BYTES = 67108864;
const MOST_ENTRIES = 33554432;
const SHOWN = 5;

// How long a look-up is thought to take: so long, and so much longer for each million bytes of its file.
const MILLIS = 5;
const MILLIS_PER_MB = 3;

function usage(what) {
  console.error(what);
  console.error('usage: compare.js [--program PROGRAM] [--jobs N] [--most N | --all] [--after] [--count] [FILE...]');
  process.exit(2);
}

function options() {
  const known = {
    program: { type: 'string', default: FOUND },
    jobs: { type: 'string', default: '3' },
    most: { type: 'string', default: '5000' },
    all: { type: 'boolean', default: false },
    after: { type: 'boolean', default: false },
    count: { type: 'boolean', default: false },
  };
  let read;
  try {
    read = parseArgs({ options: known, allowPositionals: true });
  } catch (error) {
    usage(error.message);
  }
  const { program, jobs, most, all, after, count } = read.values;
  if (![jobs, most].every((word) => /^[1-9]\d*$/.test(word))) usage('--jobs and --most take a number from 1');
  if (!count && !fs.existsSync(program)) usage(`there is no ${program}; ./smap --help finds the program`);
  return {
    program,
    jobs: Number(jobs),
    most: all ? Infinity : Number(most),
    after,
    count,
    files: read.positionals.length > 0 ? read.positionals : filesOfPackages(),
  };
}

function filesOfPackages() {
  try {
    return mapsOfPackages();
  } catch (error) {
    return usage(error.message);
  }
}

// ---------------------------------------------------------------------------------------------
// What a map file states, or why it is to be refused. The causes are asked in this order.
// ---------------------------------------------------------------------------------------------

function jsonOf(bytes) {
  let text;
  try {
    text = new TextDecoder('utf-8', { fatal: true }).decode(bytes);
  } catch {
    return undefined;
  }
  // A first line that keeps a browser from running the file as a script.
  if (text.startsWith(")]}'")) text = text.includes('\n') ? text.slice(text.indexOf('\n') + 1) : '';
  try {
    return JSON.parse(text);
  } catch {
    return undefined;
  }
}

function isText(value) {
  return typeof value === 'string';
}

function isTextOrNull(value) {
  return value === null || isText(value);
}

function isListOf(test, value) {
  return Array.isArray(value) && value.every(test);
}

// The code of the first cause that holds, or null. A key at null counts as absent.
function codeOf(bytes) {
  if (bytes.length > MOST_BYTES) return 'M1';
  const map = jsonOf(bytes);
  if (map === undefined) return 'M2';
  if (map === null || typeof map !== 'object' || Array.isArray(map)) return 'M3';
  if (map.version !== 3) return 'M4';
  if ((map.sections ?? null) !== null) throw new Error('index maps are not compared here');
  if (!isTextOrNull(map.file ?? null)) return 'M12';
  const { sources } = map;
  if (!isListOf(isTextOrNull, sources) || sources.length > MOST_ENTRIES) return 'M8';
  const names = map.names ?? [];
  if (!isListOf(isText, names) || names.length > MOST_ENTRIES) return 'M9';
  if (!isListOf(isTextOrNull, map.sourcesContent ?? [])) return 'M10';
  const isIndex = (value) => Number.isInteger(value) && value >= 0 && value < sources.length;
  if (!isListOf(isIndex, map.ignoreList ?? map.x_google_ignoreList ?? [])) return 'M11';
  if (!isTextOrNull(map.sourceRoot ?? null)) return 'M12';
  if (!isText(map.mappings) || Buffer.byteLength(map.mappings) > MOST_BYTES) return 'M13';
  const { kind } = checked(map.mappings, sources.length, names.length);
  return kind === 0 ? null : KINDS[kind].split(' ')[0];
}

function trimmed(lines) {
  const plain = lines.map((line) => line.map((segment) => Array.from(segment)));
  while (plain.length > 0 && plain[plain.length - 1].length === 0) plain.pop();
  return JSON.stringify(plain);
}

// The places that are asked, from 1, with the mapping that is to answer: each mapping's column, the next
// one where no mapping stands there, and the one before the first of a line.
function placesOf(lines) {
  const places = [];
  lines.forEach((line, i) => {
    line.forEach((segment, j) => {
      const column = segment[0] + 1;
      if (j === 0 && column > 1) places.push({ line: i + 1, column: column - 1, segment: null });
      const next = j + 1 < line.length ? line[j + 1][0] + 1 : Infinity;
      // Of several at one column the last answers.
      if (next === column) return;
      places.push({ line: i + 1, column, segment });
      if (next > column + 1) places.push({ line: i + 1, column: column + 1, segment });
    });
  });
  return places;
}

// The same in the other direction: each mapping's column, the one before it where the answer there is this mapping too,
// and the one behind the last of a line.
function placesFrom(lines) {
  const places = [];
  lines.forEach((line, i) => {
    line.forEach((segment, j) => {
      const column = segment[0] + 1;
      const before = j > 0 ? line[j - 1][0] + 1 : 0;
      // Of several at one column the first answers.
      if (before === column) return;
      if (before < column - 1) places.push({ line: i + 1, column: column - 1, segment });
      places.push({ line: i + 1, column, segment });
    });
    if (line.length > 0) places.push({ line: i + 1, column: line[line.length - 1][0] + 2, segment: null });
  });
  return places;
}

function stateOf(file, after) {
  const bytes = fs.readFileSync(file);
  const code = codeOf(bytes);
  if (code !== null) return { file, bytes: bytes.length, code, places: [] };
  const map = jsonOf(bytes);
  const lines = linesOf(map.mappings);
  const own = checked(map.mappings).lines;
  if (trimmed(lines) !== trimmed(own)) throw new Error(`the checker and the decoder read ${file} otherwise`);
  const segments = lines.reduce((sum, line) => sum + line.length, 0);
  const used = lines.filter((line) => line.length > 0).length;
  // At every 64th segment of a line.
  const checkpoints = lines.reduce((sum, line) => sum + Math.ceil(line.length / 64), 0);
  const names = (map.names ?? []).length;
  const counts =
    `ok sections 1 sources ${map.sources.length} names ${names} ` +
    `segments ${segments} lines ${used} checkpoints ${checkpoints}`;
  return { file, bytes: bytes.length, code, map, segments, counts, places: after ? placesFrom(lines) : placesOf(lines) };
}

// ---------------------------------------------------------------------------------------------
// Asking the program.
// ---------------------------------------------------------------------------------------------

// A worker is a shell that starts the program for each place that it reads. It is much quicker at
// that than node. What the program says is followed by a line with U+0001, which it never prints, and its status.
const WORKER = `while read -r line column; do
  "$0" lookup $2 "$1" "$line" "$column" 2>&1 </dev/null
  printf '\\001%s\\n' "$?"
done`;

// What the program says at each place: its lines and its status.
function askAll(program, file, places, after) {
  return new Promise((resolve, reject) => {
    const worker = spawn('sh', ['-c', WORKER, program, file, after ? '--after' : ''], { stdio: ['pipe', 'pipe', 'inherit'] });
    const said = [];
    let lines = [];
    let rest = '';
    worker.stdout.setEncoding('utf8');
    worker.stdout.on('data', (text) => {
      const whole = (rest + text).split('\n');
      rest = whole.pop();
      for (const line of whole) {
        if (/^\x01\d+$/.test(line)) {
          said.push({ lines, status: Number(line.slice(1)) });
          lines = [];
        } else {
          lines.push(line);
        }
      }
    });
    worker.on('error', reject);
    worker.stdin.on('error', reject);
    worker.on('close', () => {
      if (said.length === places.length) resolve(said);
      else reject(new Error(`a worker answered ${said.length} of ${places.length} places of ${file}`));
    });
    worker.stdin.end(places.map(({ line, column }) => `${line} ${column}\n`).join(''));
  });
}

async function askInParts(program, jobs, file, places, after) {
  const size = Math.ceil(places.length / jobs);
  const parts = [];
  for (let i = 0; i < places.length; i += size) parts.push(places.slice(i, i + size));
  const said = await Promise.all(parts.map((part) => askAll(program, file, part, after)));
  return said.flat();
}

// What is to be printed for a mapping: its line, and the excerpt where its source has content.
function printedText(map, segment) {
  const line = printedLine(map, segment);
  if (segment === null || segment.length === 1) return line;
  const content = map.sourcesContent?.[segment[1]] ?? null;
  const found = content === null ? null : excerptOf(content, segment[2], segment[3]);
  return found === null ? line : `${line}\n${found.shown}\n${' '.repeat(found.before)}^`;
}

function differencesOfLookUps(state, places, said) {
  return places.flatMap(({ line, column, segment }, i) => {
    const expected = printedText(state.map, segment);
    const { lines, status } = said[i];
    if (status === 0 && lines.join('\n') === expected) return [];
    const reported = `it says "${lines.join('\\n')}" with status ${status}`;
    return [`lookup ${line} ${column}: "${expected}" is right, and ${reported}`];
  });
}

// What is wrong with the answer to `check`, and what that answer is.
function differencesOfCheck(program, state) {
  const { status, stdout, stderr, error } = spawnSync(program, ['check', state.file], { encoding: 'utf8' });
  if (error) throw error;
  const reported = `it says "${(stdout + stderr).trim()}" with status ${status}`;
  if (state.code === null) {
    const right = status === 0 && stdout === `${state.counts}\n` && stderr === '';
    return { reported, wrong: right ? [] : [`check: "${state.counts}" is right, and ${reported}`] };
  }
  const right =
    status === 1 &&
    stdout === '' &&
    stderr.startsWith(`refused: ${state.file}: `) &&
    new RegExp(`\\b${state.code}\\b`).test(stderr.slice(`refused: ${state.file}: `.length));
  return { reported, wrong: right ? [] : [`check: to be refused with ${state.code}, and ${reported}`] };
}

// ---------------------------------------------------------------------------------------------

function millisOf(state, places) {
  return places * (MILLIS + (MILLIS_PER_MB * state.bytes) / 1e6);
}

function shownTime(millis) {
  return `${(millis / 60000).toFixed(1)} minutes`;
}

async function main() {
  const { program, jobs, most, after, count, files } = options();
  const total = { refused: 0, segments: 0, places: 0, compared: 0, millis: 0, differences: 0 };
  const begin = process.hrtime.bigint();
  for (const file of files) {
    const state = stateOf(file, after);
    const places = spread(state.places, most);
    total.places += state.places.length;
    total.segments += state.segments ?? 0;
    total.millis += millisOf(state, places.length);
    if (state.code !== null) total.refused += 1;
    if (count) {
      const what = state.code === null ? `${state.segments} mappings` : `to be refused with ${state.code}`;
      const taken = `${state.places.length} positions, ${places.length} taken`;
      console.log(`${file}: ${state.bytes} bytes, ${what}, ${taken}`);
      total.compared += places.length;
      continue;
    }
    const { reported, wrong } = differencesOfCheck(program, state);
    // Where the counts are refused or wrong, most look-ups would be so too.
    if (wrong.length === 0 && places.length > 0) {
      const said = await askInParts(program, jobs, file, places, after);
      wrong.push(...differencesOfLookUps(state, places, said));
      total.compared += places.length;
    }
    total.differences += wrong.length;
    const asked = `${places.length} of ${state.places.length} positions`;
    const agreed = state.code === null ? asked : `refused as is right with ${state.code}: ${reported}`;
    console.log(`${file}: ${wrong.length === 0 ? agreed : `${wrong.length} differences`}`);
    for (const line of wrong.slice(0, SHOWN)) console.log(`  ${line}`);
  }
  console.log(`files ${files.length}, of which ${total.refused} are to be refused`);
  console.log(`mappings ${total.segments}, positions ${total.places}`);
  if (count) {
    console.log(`${total.compared} taken, which is about ${shownTime(total.millis / jobs)} in ${jobs} jobs`);
    return;
  }
  const took = Number(process.hrtime.bigint() - begin) / 1e6;
  console.log(`compared ${total.compared} in ${shownTime(took)}, differences ${total.differences}`);
  if (total.differences > 0) process.exitCode = 1;
}

main().catch((error) => {
  console.error(error);
  process.exitCode = 1;
});
