#!/usr/bin/env node
// Makes random positions over a map, from a fixed seed: a line of `LINE COLUMN` each, both from 1.
//
//   node make-positions.js COUNT MAP > POSITIONS
'use strict';

const fs = require('fs');
const codec = require('@jridgewell/sourcemap-codec');
const { randomPlace } = require('./places.js');
const { below } = require('../../tests/vectors/chance.js').chanceFrom(2026);

const [count, file] = process.argv.slice(2);
const lines = codec.decode(JSON.parse(fs.readFileSync(file, 'utf8')).mappings);

function column(line) {
  if (line.length === 0) return below(80);
  return randomPlace(line, below)?.column() ?? null;
}

const positions = [];
while (positions.length < count) {
  const line = below(lines.length);
  const at = column(lines[line]);
  if (at !== null) positions.push(`${line + 1} ${at + 1}`);
}
fs.writeSync(1, `${positions.join('\n')}\n`);
