#!/usr/bin/env node
// Compares what `smap compose` writes of real maps with what a script writes that follows each mapping in the lists
// that other people's decoder gives. README.md beside this file says how.
//
//   node compare.js [--program PROGRAM] [FOLDER...]
//
// Nothing here is made from smap's own output.
'use strict';

const fs = require('fs');
const os = require('os');
const path = require('path');
const { spawnSync } = require('child_process');
const { isDeepStrictEqual } = require('util');
const { minify } = require('terser');
const { composedMap } = require('../vectors/compose.js');
const { linesOf } = require('../vectors/lookup.js');
const { MOST_BYTES, given } = require('../compare-maps/files.js');

const EXAMPLES = path.join(__dirname, '..', '..', 'examples');

// The steps of the builds in examples/: an outer map, its source, and the map of that.
const STEPS = [
  ['preset-react.min.js.map', 0, 'preset-react.js.map'],
  ['modules.min.js.map', 0, 'modules.js.map'],
  ['modules.js.map', 0, 'preset-react.js.map'],
  ['modules.js.map', 1, 'convert-comments.cjs.map'],
].map(([outer, source, inner]) => [path.join(EXAMPLES, outer), source, path.join(EXAMPLES, inner)]);

function mapIn(file) {
  return JSON.parse(fs.readFileSync(file, 'utf8'));
}

function compose(program, outer, source, inner) {
  const asked = ['compose', outer, String(source), inner];
  const { status, stdout, stderr, error } = spawnSync(program, asked, { encoding: 'utf8', maxBuffer: MOST_BYTES });
  if (error) throw error;
  return { status, text: stdout, reported: stderr.trim() };
}

// What became of the mappings to this source, counted.
function countInto(counts, outer, source, text) {
  const after = linesOf(text.mappings);
  linesOf(outer.mappings).forEach((line, i) =>
    line.forEach((segment, j) => {
      counts.mappings += 1;
      if (segment.length === 1 || segment[1] !== source) return;
      counts.followed += 1;
      if (after[i][j].length > 1) counts.found += 1;
    }),
  );
}

// What is wrong with the text of a composed map, or null.
function wrongWith(counts, program, [outer, source, inner]) {
  const first = mapIn(outer);
  const wanted = composedMap(first, source, mapIn(inner));
  const { status, text, reported } = compose(program, outer, source, inner);
  counts.compositions += 1;
  if (status !== 0) return `status ${status}: ${reported}`;
  countInto(counts, first, source, wanted);
  if (text === `${JSON.stringify(wanted)}\n`) return null;
  const written = JSON.parse(text);
  const parts = Object.keys(wanted).filter((part) => !isDeepStrictEqual(wanted[part], written[part]));
  return `differs in ${parts.length > 0 ? parts.join(', ') : 'its text'}`;
}

// A source that the map doesn't have.
function wrongWithRefusal(program, file) {
  const { status, text, reported } = compose(program, file, mapIn(file).sources.length, file);
  if (status === 1 && text === '' && reported === 'refused: C1 SourceIndex') return null;
  return `a source past the last: status ${status}: ${reported}`;
}

// Three maps, composed in either way, have to give the same bytes. Which of them are warned of may differ: each way asks other
// pairs of them whether they fit.
function wrongWithThree(program, folder, [first, second, third]) {
  const outer = mapIn(first);
  const [s, t] = [outer.sources.length - 1, mapIn(second).sources.length - 1];
  const [left, right] = [path.join(folder, 'left'), path.join(folder, 'right')];
  fs.writeFileSync(left, compose(program, first, s, second).text);
  fs.writeFileSync(right, compose(program, second, t, third).text);
  const one = compose(program, left, outer.sources.length + t, third);
  const other = compose(program, first, s, right);
  const isSame = one.status === 0 && other.status === 0 && one.text === other.text;
  return isSame ? null : 'the two ways of composing it with the next two differ';
}

// The map of the minified code of a file that lies beside its map, written to the folder; null where there is no such
// file, terser doesn't read it, or nothing is left of it.
async function minified(folder, map) {
  const code = map.replace(/\.map$/, '');
  if (!/\.[cm]?js$/.test(code) || !fs.existsSync(code)) return null;
  const to = path.join(folder, 'outer.map');
  const text = fs.readFileSync(code, 'utf8');
  const options = { module: /^export /m.test(text), sourceMap: { filename: 'min.js', includeSources: true } };
  const made = await minify({ [path.basename(code)]: text }, options).catch(() => null);
  if (made === null || JSON.parse(made.map).sources.length === 0) return null;
  fs.writeFileSync(to, made.map);
  return to;
}

// The first source of a map, one in the middle, and the last.
function sourcesOf(map) {
  const last = mapIn(map).sources.length - 1;
  return [...new Set([0, last >> 1, last])].filter((source) => source >= 0);
}

function newCounts() {
  return { compositions: 0, mappings: 0, followed: 0, found: 0 };
}

function shown({ compositions, mappings, followed, found }) {
  return `compositions ${compositions}, mappings ${mappings}, of which followed ${followed}, to an origin ${found}`;
}

// Compares all that is asked of one file and of the two behind it.
async function compareFile(total, program, folder, [file, next, third]) {
  const outer = await minified(folder, file);
  if (outer !== null) total.report(`${file}, minified`, wrongWith(total.steps, program, [outer, 0, file]));
  for (const source of sourcesOf(file)) total.report(file, wrongWith(total.any, program, [file, source, next]));
  if (sourcesOf(file).length > 0 && sourcesOf(next).length > 0) {
    total.report(file, wrongWithThree(program, folder, [file, next, third]));
    total.threes += 1;
  }
  total.report(file, wrongWithRefusal(program, file));
  total.refusals += 1;
}

function newTotal() {
  return {
    steps: newCounts(),
    any: newCounts(),
    threes: 0,
    refusals: 0,
    differences: 0,
    report(file, wrong) {
      if (wrong === null) return;
      this.differences += 1;
      console.log(`${file}: ${wrong}`);
    },
  };
}

async function main() {
  const { program, files } = given();
  const folder = fs.mkdtempSync(path.join(os.tmpdir(), 'smap-'));
  const total = newTotal();
  try {
    for (const step of STEPS) total.report(step[0], wrongWith(total.steps, program, step));
    for (const i of files.keys()) {
      const three = [0, 1, 2].map((far) => files[(i + far) % files.length]);
      await compareFile(total, program, folder, three);
    }
  } finally {
    fs.rmSync(folder, { recursive: true });
  }
  console.log(`files ${files.length}`);
  console.log(`two steps of a build: ${shown(total.steps)}`);
  console.log(`each with the next: ${shown(total.any)}`);
  console.log(`three maps in both ways ${total.threes}, sources past the last ${total.refusals}`);
  console.log(`differences ${total.differences}`);
  if (total.differences > 0) process.exitCode = 1;
}

main().catch((error) => {
  console.error(error.message);
  process.exitCode = 2;
});
