#!/usr/bin/env node
// Puts pairs of a map and its generated file to `smap fit`, right ones and damaged ones, and compares what it counts with what
// fit.js counts. README.md beside this file says how.
//
//   node compare.js [--program PROGRAM] [FOLDER...]
'use strict';

const fs = require('fs');
const os = require('os');
const path = require('path');
const { spawnSync } = require('child_process');
const codec = require('@jridgewell/sourcemap-codec');
const { MOST_BYTES, given } = require('../compare-maps/files.js');
const { fitOf } = require('./fit.js');

// The generated file of a map file, where it stands beside it.
function generatedOf(file) {
  const front = file.slice(0, -'.map'.length);
  return [front, `${front}.js`, `${front}.css`].find((name) => fs.existsSync(name));
}

function pairOf(file) {
  const generated = generatedOf(file);
  if (generated === undefined) return [];
  const map = JSON.parse(fs.readFileSync(file, 'utf8'));
  if (map.sections !== undefined) return [];
  return [{ name: file, map, text: fs.readFileSync(generated, 'utf8'), next: nextOf(generated) }];
}

// The text of the next release, of what builds.js built.
function nextOf(generated) {
  const folder = path.dirname(generated);
  const next = path.join(folder, '..', 'second', path.basename(generated));
  return path.basename(folder) === 'first' && fs.existsSync(next) ? fs.readFileSync(next, 'utf8') : undefined;
}

function withColumnsMoved(map) {
  const lines = codec.decode(map.mappings).map((line) => line.map(([column, ...rest]) => [column + 1, ...rest]));
  return { ...map, mappings: codec.encode(lines) };
}

// The text with a statement more, before what the middle one of the mappings stands at.
function withStatement({ map, text }) {
  const places = codec.decode(map.mappings).flatMap((line, number) => line.map(([column]) => [number, column]));
  if (places.length === 0) return text;
  const [number, column] = places[places.length >> 1];
  const lines = text.split('\n');
  lines[number] = `${lines[number].slice(0, column)}console.log(1);${lines[number].slice(column)}`;
  return lines.join('\n');
}

const DAMAGES = {
  right: (pair) => pair,
  'the text of another pair': (pair, i, pairs) => ({ ...pair, text: pairs[(i + (pairs.length >> 1)) % pairs.length].text }),
  'the text of the next pair': (pair, i, pairs) => ({ ...pair, text: pairs[(i + 1) % pairs.length].text }),
  'the text of another release': (pair) => (pair.next === undefined || pair.next === pair.text ? undefined : { ...pair, text: pair.next }),
  'a line put before the text': (pair) => ({ ...pair, text: `/* a banner */\n${pair.text}` }),
  'each column one too large': (pair) => ({ ...pair, map: withColumnsMoved(pair.map) }),
  '`console.log(1);` put in': (pair) => ({ ...pair, text: withStatement(pair) }),
};

// What the program says of pairs, which are written into a folder.
function counted(program, folder, pairs) {
  const words = pairs.flatMap(({ map, text }, i) => {
    const names = [path.join(folder, `${i}.map`), path.join(folder, `${i}.js`)];
    fs.writeFileSync(names[0], JSON.stringify(map));
    fs.writeFileSync(names[1], text);
    return names;
  });
  const { stdout, stderr, error } = spawnSync(program, ['fit', '--json', ...words], { encoding: 'utf8', maxBuffer: MOST_BYTES });
  if (error) throw error;
  if (stderr !== '') throw new Error(stderr);
  return stdout.trim().split('\n').map((line) => JSON.parse(line));
}

function isMisfit({ past, inside }) {
  return past + inside > 0;
}

function main() {
  const { program, files } = given();
  const pairs = files.flatMap(pairOf);
  const folder = fs.mkdtempSync(path.join(os.tmpdir(), 'compare-fit-'));
  let differences = 0;
  let alarms = 0;
  try {
    for (const [damage, damaged] of Object.entries(DAMAGES)) {
      const those = pairs.map(damaged).filter((pair) => pair !== undefined);
      if (those.length === 0) continue;
      const own = those.map(({ map, text }) => fitOf(map, text));
      const said = counted(program, folder, those);
      own.forEach((counts, i) => {
        const { fits, ...others } = said[i] ?? {};
        const same = Object.keys(counts).every((key) => counts[key] === others[key]) && fits === !isMisfit(counts);
        if (!same) console.log(`${those[i].name}: ${damage}: ${JSON.stringify(counts)}, and smap ${JSON.stringify(said[i])}`);
        differences += same ? 0 : 1;
        if (damage === 'right' && isMisfit(said[i] ?? counts)) {
          console.log(`${those[i].name}: is right, and does not fit: ${JSON.stringify(counts)}`);
          alarms += 1;
        }
      });
      const many = own.filter(({ mappings }) => mappings > 10);
      console.log(`${damage}: ${own.filter(isMisfit).length} of ${own.length} do not fit, ${many.filter(isMisfit).length} of the ${many.length} with more than 10 mappings`);
    }
  } finally {
    fs.rmSync(folder, { recursive: true });
  }
  console.log(`differences ${differences}`);
  if (differences + alarms > 0) process.exitCode = 1;
}

try {
  main();
} catch (error) {
  console.error(error.message);
  process.exitCode = 2;
}
