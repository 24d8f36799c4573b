#!/usr/bin/env node
// Makes a trace over maps: frames at random positions, from a fixed seed, each with an original.
//
//   node make-trace.js LINES URL=MAP.. > TRACE
//   STACKS=2000 node make-trace.js LINES URL=MAP.. > TRACE
//
// With STACKS there are so many different stacks, of a line of text and 5 to 20 frames each, and they come again as errors do
// in a log: the second half as often as the first, the third a third as often, and so on.
'use strict';

const fs = require('fs');
const codec = require('@jridgewell/sourcemap-codec');
const { randomPlace } = require('./places.js');
const { below, pick } = require('../../tests/vectors/chance.js').chanceFrom(2026);

const [count, ...words] = process.argv.slice(2);

function mapOf(word) {
  const at = word.lastIndexOf('=');
  const { names, mappings } = JSON.parse(fs.readFileSync(word.slice(at + 1), 'utf8'));
  return { url: word.slice(0, at), names, lines: codec.decode(mappings) };
}

const maps = words.map(mapOf);

const FORMS = [
  (name, at) => `    at ${name} (${at})`,
  (name, at) => `    at Object.${name} [as ${name}] (${at})`,
  (name, at) => `    at new ${name} (${at})`,
  (name, at) => `    at async ${name} (${at})`,
  (name, at) => `    at ${at}`,
];

function frame() {
  for (;;) {
    const { url, names, lines: generated } = pick(maps);
    const line = below(generated.length);
    if (generated[line].length === 0) continue;
    const place = randomPlace(generated[line], below);
    if (place === null || place.segment.length === 1) continue;
    return pick(FORMS)(pick(names), `${url}:${line + 1}:${place.column() + 1}`);
  }
}

function stack(number) {
  return [`Error: what went wrong has number ${number}`, ...Array.from({ length: 5 + below(16) }, frame)];
}

// One of them, the first most often.
function again(stacks, weights) {
  const rest = below(1e9) * (weights.at(-1) / 1e9);
  let [low, high] = [0, stacks.length - 1];
  while (low < high) {
    const middle = (low + high) >> 1;
    if (weights[middle] <= rest) low = middle + 1;
    else high = middle;
  }
  return stacks[low];
}

const lines = [];
if (process.env.STACKS) {
  const stacks = Array.from({ length: Number(process.env.STACKS) }, (_, number) => stack(number));
  let sum = 0;
  const weights = stacks.map((_, rank) => (sum += 1 / (rank + 1)));
  while (lines.length < count) lines.push(...again(stacks, weights));
} else {
  while (lines.length < count) lines.push(frame());
}
fs.writeSync(1, `${lines.slice(0, count).join('\n')}\n`);
