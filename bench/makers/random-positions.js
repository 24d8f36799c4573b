#!/usr/bin/env node
// Writes random positions in the generated file of a regular map: node random-positions.js MAP COUNT FILE. A line and a
// column each, from 0, as 32-bit numbers of this machine.
'use strict';

const fs = require('fs');
const { below } = require('../../tests/vectors/chance.js').chanceFrom(20250101);

const [path, count, file] = process.argv.slice(2);
const lines = JSON.parse(fs.readFileSync(path, 'utf8')).mappings.split(';');
const positions = new Uint32Array(2 * count);
for (let i = 0; i < count; i += 1) {
  const line = below(lines.length);
  positions[2 * i] = line;
  positions[2 * i + 1] = below(lines[line].length * 1.5 + 1);
}
fs.writeFileSync(file, Buffer.from(positions.buffer));
