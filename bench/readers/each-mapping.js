#!/usr/bin/env node
// Reads MAP and hands out each mapping: node each-mapping.js smap|trace MAP CALL prints the milliseconds of reading, those of the
// call, the peak of memory in MB, and the sum of the columns. CALL is eachMapping, decodedMappings, or mappings, which only
// smap has.
'use strict';

const fs = require('fs');

const [how, path, call] = process.argv.slice(2);
const library = how === 'smap' ? require('../../lib/node') : require('@jridgewell/trace-mapping');
const now = () => Number(process.hrtime.bigint() / 1000n) / 1000;
let sum = 0;
const begin = now();
const map = new library.TraceMap(fs.readFileSync(path, 'utf8'));
const read = now();
if (call === 'mappings') for (const { generatedColumn } of map.mappings()) sum += generatedColumn;
else if (call === 'eachMapping') library.eachMapping(map, ({ generatedColumn }) => (sum += generatedColumn));
else for (const line of library.decodedMappings(map)) for (const [column] of line) sum += column;
const end = now();
console.log(`${Math.round(read - begin)} ${Math.round(end - read)} ${Math.round((process.resourceUsage().maxRSS * 1024) / 1e6)} ${sum}`);
