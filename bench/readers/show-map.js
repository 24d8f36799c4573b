#!/usr/bin/env node
// Writes a regular map as `smap show` writes one whose sources are named as they stand.
//
//   node show-map.js MAP
//
// prints the microseconds from before the file is read until the text is there to standard error, and the text to
// standard output.
'use strict';

const fs = require('fs');
const codec = require('@jridgewell/sourcemap-codec');

const begin = process.hrtime.bigint();
const map = JSON.parse(fs.readFileSync(process.argv[2], 'utf8'));
const { file, ignoreList, mappings, names, sources, sourcesContent } = map;
const text = JSON.stringify({
  file,
  ignoreList,
  mappings: codec.encode(codec.decode(mappings)),
  names,
  sources,
  sourcesContent,
  version: 3,
});
const took = process.hrtime.bigint() - begin;
console.error(`${took / 1000n}`);
process.stdout.write(`${text}\n`);
