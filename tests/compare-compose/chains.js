#!/usr/bin/env node
// Compares what `smap compose` writes of a bundle's map and of the maps of all its modules with what @ampproject/remapping
// writes of them with a loader, over builds in three steps. README.md beside this file says how.
//
//   node chains.js [--program PROGRAM] [--short]
//
// Nothing here is made from smap's own output.
'use strict';

const fs = require('fs');
const os = require('os');
const path = require('path');
const { spawnSync } = require('child_process');
const { parseArgs } = require('util');
const { FOUND, MOST_BYTES } = require('../compare-maps/files.js');
const { composedAll, pruned } = require('../vectors/compose-all.js');
const { linesOf } = require('../vectors/lookup.js');
const { builds, example } = require('./builds.js');
const { remapped } = require('./remapped.js');

const known = { program: { type: 'string', default: FOUND }, short: { type: 'boolean', default: false } };
const { program, short } = parseArgs({ options: known }).values;

const counts = { passed: 0, failed: 0, chains: 0, inners: 0, outer: 0, written: 0, others: 0, sources: 0 };

function check(what, wrong) {
  if (wrong === null) {
    counts.passed += 1;
    return;
  }
  counts.failed += 1;
  console.log(`${what}: ${wrong}`);
}

function mapIn(file) {
  return JSON.parse(fs.readFileSync(file, 'utf8'));
}

function run(...words) {
  const { status, stdout, stderr, error } = spawnSync(program, words, { encoding: 'utf8', maxBuffer: MOST_BYTES });
  if (error) throw error;
  return { status, text: stdout, reported: stderr.trim() };
}

// A LIST of these files by names of sources, as a file in the folder.
function listOf(folder, inners) {
  const list = path.join(folder, 'list');
  fs.writeFileSync(list, [...inners].map(([name, file]) => `${name}\t${file}\n`).join(''));
  return list;
}

// ---------------------------------------------------------------------------------------------
// What is the same.
// ---------------------------------------------------------------------------------------------

// Each mapping as one text: its place, and where it leads by names.
function placesOf({ mappings, sources, names }) {
  const origin = ([, source, line, column, name]) =>
    source === undefined ? [] : [sources[source], line, column, ...(name === undefined ? [] : [names[name]])];
  return linesOf(mappings).flatMap((line, i) => line.map((segment) => JSON.stringify([i, segment[0], ...origin(segment)])));
}

function sourcesOf({ sources, sourcesContent }) {
  return sources.map((name, i) => JSON.stringify([name, sourcesContent?.[i] ?? null]));
}

// What of the one list is not in the other.
function lackOf(what, wanted, given) {
  const there = new Set(given);
  const left = wanted.filter((item) => !there.has(item));
  return left.length === 0 ? null : `${left.length} of ${wanted.length} ${what} of remapping's are not there, the first ${left[0].slice(0, 200)}`;
}

// What differs between a text and the map that it has to be.
function differenceOf(text, wanted) {
  if (text === `${JSON.stringify(wanted)}\n`) return null;
  const written = JSON.parse(text);
  const parts = Object.keys(wanted).filter((part) => JSON.stringify(wanted[part]) !== JSON.stringify(written[part]));
  return `differs in ${parts.length > 0 ? parts.join(', ') : 'its text'}`;
}

// ---------------------------------------------------------------------------------------------
// One step, and a build.
// ---------------------------------------------------------------------------------------------

// An outer map and the maps of its sources: what smap writes, beside what remapping writes of them and of the maps of the
// sources of these. What smap writes is returned.
function compareStep(what, folder, outer, inners, steps) {
  const maps = new Map([...inners].map(([name, file]) => [name, mapIn(file)]));
  const wanted = composedAll(mapIn(outer), maps);
  const list = listOf(folder, inners);
  const whole = run('compose', '--inners', list, outer);
  check(what, whole.status === 0 ? differenceOf(whole.text, wanted) : `status ${whole.status}: ${whole.reported}`);
  const less = run('compose', '--prune', '--inners', list, outer);
  check(`${what}, pruned`, less.status === 0 ? differenceOf(less.text, pruned(wanted)) : `status ${less.status}: ${less.reported}`);
  if (less.status !== 0) return null;
  const given = JSON.parse(less.text);
  const others = remapped(outer, steps);
  check(what, lackOf('mappings', placesOf(others), placesOf(given)));
  check(what, lackOf('sources', sourcesOf(others), sourcesOf(given)));
  counts.chains += 1;
  counts.inners += inners.size;
  counts.outer += placesOf(mapIn(outer)).length;
  counts.written += placesOf(given).length;
  counts.others += placesOf(others).length;
  counts.sources += others.sources.length;
  return less.text;
}

// The bundle's map with those of its modules, and the minified bundle's with what came of that.
function compareBuild(folder, { name, bundle, minified, inners }) {
  const text = compareStep(`${name}, the bundle`, folder, bundle, inners, [inners]);
  if (text === null) return;
  const whole = path.join(folder, 'whole.map');
  fs.writeFileSync(whole, text);
  const steps = [new Map([['bundle.js', bundle]]), inners];
  compareStep(`${name}, minified`, folder, minified, new Map([['bundle.js', whole]]), steps);
}

// ---------------------------------------------------------------------------------------------
// The words, on the build of examples/.
// ---------------------------------------------------------------------------------------------

function same(what, given, wanted) {
  check(what, given === wanted ? null : `${JSON.stringify(given).slice(0, 200)} in place of ${JSON.stringify(wanted).slice(0, 200)}`);
}

function refused(what, words, status, reported) {
  const given = run('compose', ...words);
  same(what, JSON.stringify([given.status, given.text, given.reported.split('\n')[0]]), JSON.stringify([status, '', reported]));
}

function compareWords(folder, { bundle, inners }) {
  const list = listOf(folder, inners);
  const words = [...inners].map(([name, file]) => `${name}=${file}`);
  const [[name, file], ...rest] = inners;
  const asWords = (some) => some.flatMap((word) => ['--inner', word]);
  const whole = run('compose', '--prune', '--inners', list, bundle).text;
  same('maps given by words', run('compose', '--prune', ...asWords(words), bundle).text, whole);
  same('maps given in another order', run('compose', '--prune', ...asWords([...words].reverse()), bundle).text, whole);
  const others = listOf(folder, rest);
  same('maps given by a word and a list', run('compose', '--prune', '--inners', others, '--inner', words[0], bundle).text, whole);
  const without = JSON.parse(whole);
  delete without.sourcesContent;
  const bare = run('compose', '--prune', '--no-content', '--inners', listOf(folder, inners), bundle).text;
  same('without contents', bare, `${JSON.stringify(without)}\n`);

  refused('a name that no source has', ['--inner', `none.js=${file}`, bundle], 1, 'refused: C4 NoSource none.js');
  refused('a name twice', [...asWords([words[0], words[0]]), bundle], 2, `usage: A2 Twice: ${words[0]}`);
  fs.writeFileSync(list, `${name}\t${file}\n`.repeat(2));
  refused('a name twice in a list', ['--inners', list, bundle], 2, `usage: ${list} line 2: A2 Twice`);
  refused('a name of a word again in a list', ['--inner', words[0], '--inners', list, bundle], 2, `usage: ${list} line 1: A2 Twice`);
  fs.writeFileSync(list, `${name} ${file}\n`);
  refused('a line without a TAB', ['--inners', list, bundle], 2, `usage: ${list} line 1: no TAB`);
}

// The maps that lie in examples/ are those that remapping writes here.
function compareRemapped({ bundle, minified, inners }) {
  const kept = path.join(path.dirname(bundle), '..', 'remapped');
  const read = (file) => fs.readFileSync(path.join(kept, path.basename(file)), 'utf8');
  same('what remapping wrote of the bundle', `${remapped(bundle, [inners])}\n`, read(bundle));
  const steps = [new Map([['bundle.js', bundle]]), inners];
  same('what remapping wrote of the minified bundle', `${remapped(minified, steps)}\n`, read(minified));
}

async function* some(folder) {
  yield example();
  if (!short) yield* builds(folder);
}

async function main() {
  if (!fs.existsSync(program)) throw new Error(`there is no ${program}; ./smap --help finds it`);
  const folder = fs.mkdtempSync(path.join(os.tmpdir(), 'smap-'));
  const made = path.join(folder, 'made');
  try {
    compareRemapped(example());
    compareWords(folder, example());
    for await (const build of some(made)) {
      compareBuild(folder, build);
      fs.rmSync(made, { recursive: true, force: true });
    }
  } finally {
    fs.rmSync(folder, { recursive: true });
  }
  console.log(`steps of builds ${counts.chains}, inner maps ${counts.inners}, mappings of the outer maps ${counts.outer}`);
  console.log(`mappings written ${counts.written}; by remapping ${counts.others}, with ${counts.sources} sources`);
  console.log(`${counts.passed} passed, ${counts.failed} failed`);
  if (counts.failed > 0) process.exitCode = 1;
}

main().catch((error) => {
  console.error(error.message);
  process.exitCode = 2;
});
