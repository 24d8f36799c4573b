#!/usr/bin/env node
// Reads MAP and asks for the generated place of each original that makers/list-originals.js wrote to ORIGINALS: node each-original.js
// smap|trace MAP ORIGINALS prints the milliseconds of reading, those of asking, the peak of memory in MB, and the sum of the columns that
// are found. With CLOCK=processor they are those of processors, of all threads.
'use strict';

const fs = require('fs');

const [how, path, originals] = process.argv.slice(2);
const library = how === 'smap' ? require('../../lib/node') : require('@jridgewell/trace-mapping');
const clock = () => Number(process.hrtime.bigint() / 1000n);
const ofProcessors = () => process.cpuUsage().user + process.cpuUsage().system;
const now = process.env.CLOCK === 'processor' ? ofProcessors : clock;
const { buffer, byteOffset, length } = fs.readFileSync(originals);
const asked = new Uint32Array(buffer, byteOffset, length / 4);
let sum = 0;
const begin = now();
const map = new library.TraceMap(fs.readFileSync(path, 'utf8'));
const read = now();
for (let i = 0; i < asked.length; i += 3) {
  const needle = { source: map.sources[asked[i]], line: asked[i + 1] + 1, column: asked[i + 2] };
  sum += library.generatedPositionFor(map, needle).column;
}
const end = now();
const milliseconds = (from, to) => Math.round((to - from) / 1000);
console.log(`${milliseconds(begin, read)} ${milliseconds(read, end)} ${Math.round((process.resourceUsage().maxRSS * 1024) / 1e6)} ${sum}`);
