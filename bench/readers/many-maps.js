#!/usr/bin/env node
// Reads MAP again and again, COUNT times in one loop, looks a position up in each and closes none: node many-maps.js
// smap|trace MAP COUNT prints the milliseconds, the peak of memory in MB, and the sum of the answers.
'use strict';

const fs = require('fs');

const [how, path, count] = process.argv.slice(2);
const library = how === 'smap' ? require('../../lib/node') : require('@jridgewell/trace-mapping');
const text = fs.readFileSync(path, 'utf8');
const begin = process.hrtime.bigint();
let sum = 0;
for (let i = 0; i < Number(count); i++) {
  const map = new library.TraceMap(text);
  const { line, column } = library.originalPositionFor(map, { line: 1 + i, column: 1000000 });
  if (line !== null) sum += line + column;
}
const milliseconds = Number((process.hrtime.bigint() - begin) / 1000000n);
console.log(`${milliseconds} ${Math.round((process.resourceUsage().maxRSS * 1024) / 1e6)} ${sum}`);
