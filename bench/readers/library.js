#!/usr/bin/env node
// Reads MAP and looks POSITIONS up in node: node library.js smap|trace MAP POSITIONS prints what library.c does. Where
// trace-mapping has no call for many, it has a -.
'use strict';

const fs = require('fs');

const [how, path, places] = process.argv.slice(2);
const bytes = fs.readFileSync(places);
const positions = new Uint32Array(bytes.buffer.slice(bytes.byteOffset, bytes.byteOffset + bytes.length));
for (let i = 0; i < positions.length; i += 2) positions[i] += 1; // in node lines count from 1
const library = how === 'smap' ? require('../../lib/node') : require('@jridgewell/trace-mapping');
const clock = () => Number(process.hrtime.bigint() / 1000n);
const ofProcessors = () => process.cpuUsage().user + process.cpuUsage().system;
const now = process.env.CLOCK === 'processor' ? ofProcessors : clock;

const begin = now();
const map = new library.TraceMap(how === 'smap' ? fs.readFileSync(path) : fs.readFileSync(path, 'utf8'));
library.originalPositionFor(map, { line: 1, column: 0 }); // trace-mapping decodes at the first look-up
const read = now();
let sum = 0;
for (let i = 0; i < positions.length; i += 2) {
  const { line, column } = library.originalPositionFor(map, { line: positions[i], column: positions[i + 1] });
  if (line !== null) sum += line - 1 + column;
}
const one = now();
let many = '-';
if (how === 'smap') {
  const found = library.lookUpMany(map, positions);
  many = now() - one;
  let same = 0;
  for (let i = 0; i < found.length; i += 7) if (found[i] === 2) same += found[i + 3] - 1 + found[i + 4];
  if (same !== sum) throw new Error(`${same} in place of ${sum}`);
}
console.log(`${read - begin} ${one - read} ${many} ${sum}`);
