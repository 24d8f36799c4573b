#!/usr/bin/env node
// Makes a large map of a real one: its mappings text many times over, all else as it is.
//
//   node repeat-map.js MAP BYTES OUT
//
// writes a map of about so many bytes to OUT, and prints three lines: what `smap check` is to say of it,
// a position near its end (LINE COLUMN, from 1), and what `smap lookup` is to say there.
//
// Between two copies stands a line of one mapping that takes each running value back to 0, so that each
// copy states what the real map states, and no value grows with the copies.
'use strict';

const fs = require('fs');
const codec = require('@jridgewell/sourcemap-codec');
const { isAlone } = require('./places.js');
const { printedLine } = require('../../tests/vectors/lookup.js');

const [from, bytes, to] = process.argv.slice(2);
const map = JSON.parse(fs.readFileSync(from, 'utf8'));
const lines = codec.decode(map.mappings);
const back = map.names.length > 0 ? [0, 0, 0, 0, 0] : [0, 0, 0, 0];
const copy = codec.encode([...lines, [back]]);
if (!copy.startsWith(`${map.mappings};`)) throw new Error('a text that is spelled otherwise than needed');

const rest = JSON.stringify({ ...map, mappings: '' }).length;
const copies = Math.max(1, Math.round((Number(bytes) - rest) / (copy.length + 1)));
fs.writeFileSync(to, JSON.stringify({ ...map, mappings: Array(copies).fill(copy).join(';') }));

const segments = copies * lines.reduce((sum, line) => sum + line.length, 1);
const used = copies * (1 + lines.filter((line) => line.length > 0).length);
// At every 64th segment of a line.
const checkpoints = copies * lines.reduce((sum, line) => sum + Math.ceil(line.length / 64), 1);
console.log(
  `ok sections 1 sources ${map.sources.length} names ${map.names.length} ` +
    `segments ${segments} lines ${used} checkpoints ${checkpoints}`,
);

// The last mapping of the last copy that has a name where there is one, and its column for itself.
const all = lines.flatMap((line, i) =>
  line
    .filter((segment, j) => segment.length > 1 && isAlone(line, j))
    .map((segment) => ({ line: i, segment })),
);
const named = all.filter(({ segment }) => segment.length === 5);
const { line, segment } = (named.length > 0 ? named : all).pop();
console.log(`${(copies - 1) * (lines.length + 1) + line + 1} ${segment[0] + 1}`);
console.log(printedLine(map, segment));
