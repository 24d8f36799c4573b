#!/usr/bin/env node
// Refuses each growth of each call that takes memory in turn, and all growths of those that take none. README.md beside this
// file says how.
//
//   node sweep.js [--program PROGRAM] [CALL...]
'use strict';

const fs = require('fs');
const os = require('os');
const path = require('path');
const { execFileSync, spawnSync } = require('child_process');
const { parseArgs } = require('util');
const { FREE, TAKING } = require('./calls.js');

const ROOT = path.join(__dirname, '..', '..');
const NAME = 'smap_sweeps';
const COPY = fs.mkdtempSync(path.join(os.tmpdir(), 'smap-sweeps-'));
const CRATE = path.join(COPY, 'crates', NAME);
const KEPT = path.join(ROOT, '.smap', 'sweeps-out');
const BELOW =
  'smap_codes smap_mappings smap_index smap_resolve smap_text smap_record smap_explain smap_verdicts smap_fit smap_compose smap_io smap_lines smap_locations smap_trace smap_store smap_anywhere smap_command smap_printing smap_replies smap_answers smap_arguments';
const MOST_GROWTHS = 10000;

// ---------------------------------------------------------------------------------------------
// The program, proved and built over the crates of this repository, and what refuses memory to it.
// ---------------------------------------------------------------------------------------------

// The crates stand in a copy, with the program beside them. The gate takes no source file that stands outside its crates, so
// those of the program have names of their own here, and the copy lies in a temporary folder, which goes when this script ends.
// What was proved of the program stays, and so does the program.
function built() {
  copyCrates(path.join(COPY, 'crates'));
  fs.mkdirSync(CRATE);
  for (const name of fs.readdirSync(__dirname, { recursive: true }).filter((name) => name.endsWith('.in'))) {
    const copy = path.join(CRATE, name.replace(/\.in$/, ''));
    fs.mkdirSync(path.dirname(copy), { recursive: true });
    fs.copyFileSync(path.join(__dirname, name), copy);
  }
  if (fs.existsSync(KEPT)) move(KEPT, path.join(CRATE, 'out'));
  const own = fs.readFileSync(path.join(ROOT, 'crates.txt'), 'utf8');
  fs.writeFileSync(path.join(COPY, 'crates.txt'), `${own}${NAME}: ${BELOW}\n`);
  console.log(`${NAME}: proving and building; this takes minutes`);
  const run = spawnSync('rt', ['run', '--', 'free Meter'], { cwd: CRATE, encoding: 'utf8', maxBuffer: 1 << 28 });
  if (run.status !== 0) {
    console.error(`${run.stdout}${run.stderr}`);
    process.exit(2);
  }
  keep();
  return path.join(KEPT, NAME);
}

// By links, or where the copy lies on another file system, the files.
function copyCrates(to) {
  const own = path.join(ROOT, 'crates');
  try {
    execFileSync('cp', ['-Rl', own, to], { stdio: 'ignore' });
  } catch {
    fs.rmSync(to, { recursive: true, force: true });
    execFileSync('cp', ['-Rp', own, to]);
  }
}

// Also to another file system, and into a folder that is not there yet.
function move(from, to) {
  fs.mkdirSync(path.dirname(to), { recursive: true });
  execFileSync('mv', ['-T', from, to]);
}

function keep() {
  const out = path.join(CRATE, 'out');
  if (fs.existsSync(out)) move(out, KEPT);
}

function leave() {
  keep();
  fs.rmSync(COPY, { recursive: true, force: true });
}

function refuser() {
  const library = path.join(COPY, 'refusing.so');
  execFileSync('cc', ['-O1', '-shared', '-fPIC', '-o', library, path.join(__dirname, 'refusing.c'), '-ldl']);
  return library;
}

// ---------------------------------------------------------------------------------------------
// One run, and the runs of one call.
// ---------------------------------------------------------------------------------------------

function ran({ program, library }, call, refuse) {
  const env = { LD_PRELOAD: library, REFUSE: String(refuse) };
  const run = spawnSync(program, [call], { env, encoding: 'utf8' });
  const lines = run.stdout.split('\n');
  const counts = /^growths (\d+) refused (\d+)$/.exec(lines[0]);
  if (run.status !== 0 || run.stderr !== '' || counts === null) {
    return { wrong: `status ${run.status ?? run.signal}: ${run.stdout}${run.stderr}` };
  }
  return { growths: Number(counts[1]), refused: Number(counts[2]), reported: lines.slice(1, -1) };
}

// How the answers of a call that takes memory are, while one growth after another is refused, until it runs through.
function swept(tools, { call, answer, again = answer, memory, growths }) {
  const answers = { memory: 0, ample: 0 };
  const ample = [`first: ${answer}`, `again: ${again}`];
  const wanting = [memory].flat().map((first) => [`first: ${first}`, `again: ${again}`].join('\n'));
  const unseen = new Set(wanting);
  let last;
  for (let n = 1; n <= MOST_GROWTHS; n += 1) {
    const run = ran(tools, call, n);
    if (run.wrong !== undefined) return { wrong: `growth ${n}: ${run.wrong}` };
    const reported = run.reported.join('\n');
    if (run.refused === 0) {
      last = run;
      if (reported !== ample.join('\n')) return { wrong: `with ample memory: ${reported}` };
      break;
    }
    if (wanting.includes(reported)) {
      answers.memory += 1;
      unseen.delete(reported);
    } else if (reported === ample.join('\n')) answers.ample += 1;
    else return { wrong: `growth ${n} refused: ${reported}` };
  }
  if (last === undefined) return { wrong: `more than ${MOST_GROWTHS} growths` };
  if (growths !== undefined && last.growths !== growths) {
    return { wrong: `${last.growths} growths with ample memory, and not ${growths}` };
  }
  if (Array.isArray(memory) && unseen.size > 0) return { wrong: `never answered: ${[...unseen].join(', ')}` };
  const refused = answers.memory + answers.ample;
  return { line: `${refused} refused, ${answers.memory} out of memory, ${answers.ample} ample`, refused };
}

// How a call that takes no memory answers while every growth is refused.
function freed(tools, { call, answer }) {
  const run = ran(tools, call, 'all');
  if (run.wrong !== undefined) return { wrong: run.wrong };
  if (run.growths !== 0) return { wrong: `${run.growths} growths` };
  const reported = run.reported.join('\n');
  if (reported !== answer) return { wrong: reported };
  return { line: 'no growth, and its answer', refused: 0 };
}

// ---------------------------------------------------------------------------------------------
// The whole.
// ---------------------------------------------------------------------------------------------

function usage(what) {
  console.error(what);
  console.error('usage: sweep.js [--program PROGRAM] [CALL...]');
  process.exit(2);
}

function options() {
  try {
    return parseArgs({ options: { program: { type: 'string' } }, allowPositionals: true });
  } catch (error) {
    return usage(error.message);
  }
}

async function main() {
  process.on('exit', leave);
  for (const [signal, number] of Object.entries({ SIGHUP: 1, SIGINT: 2, SIGTERM: 15 })) process.on(signal, () => process.exit(128 + number));
  const { values, positionals } = options();
  const isAsked = ({ call }) => positionals.length === 0 || positionals.includes(call);
  const tools = { program: values.program ?? built(), library: refuser() };
  let [calls, refused, wrong] = [0, 0, 0];
  const sweep = async (entry, how) => {
    // Signals are taken here, and not while a program runs.
    await new Promise((done) => setImmediate(done));
    const result = how(tools, entry);
    calls += 1;
    refused += result.refused ?? 0;
    if (result.wrong !== undefined) wrong += 1;
    console.log(`${entry.call}: ${result.line ?? `WRONG ${result.wrong}`}`);
  };
  for (const entry of TAKING.filter(isAsked)) await sweep(entry, swept);
  for (const entry of FREE.filter(isAsked)) await sweep(entry, freed);
  console.log(`${calls} calls, ${refused} growths refused, ${wrong} wrong`);
  process.exitCode = wrong === 0 ? 0 : 1;
}

main();
