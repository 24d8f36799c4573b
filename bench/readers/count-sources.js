#!/usr/bin/env node
// Prints each source of MAP, its mappings and its bytes in GENERATED as `smap sources` does, by @jridgewell/trace-mapping:
// node count-sources.js MAP GENERATED. The microseconds from before the files are read until all is counted go to standard error.
// Sources have to have names and contents, and no column may fall inside a pair of UTF-16 units.
'use strict';

const fs = require('fs');
const { TraceMap, decodedMappings } = require('@jridgewell/trace-mapping');

const begin = process.hrtime.bigint();
const map = new TraceMap(fs.readFileSync(process.argv[2], 'utf8'));
const generated = fs.readFileSync(process.argv[3]);
const lines = generated.toString().split(/\r\n|[\n\r\u2028\u2029]/);
const segments = map.sources.map(() => 0);
const bytes = map.sources.map(() => 0);
let unmapped = generated.length;
decodedMappings(map).forEach((mappings, line) => {
  mappings.forEach(([column, source], i) => {
    if (source === undefined) return;
    segments[source] += 1;
    if (line >= lines.length) return;
    const length = Buffer.byteLength(lines[line].slice(column, i + 1 < mappings.length ? mappings[i + 1][0] : undefined));
    bytes[source] += length;
    unmapped -= length;
  });
});
const rows = map.resolvedSources.map((source, index) => `${index} ${segments[index]} ${bytes[index]} ${source}\n`);
process.stdout.write(`${rows.join('')}unmapped ${unmapped}\ntotal ${generated.length}\n`);
console.error(`${(process.hrtime.bigint() - begin) / 1000n}`);
