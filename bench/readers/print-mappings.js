#!/usr/bin/env node
// Prints each mapping of MAP as `smap mappings` does, by eachMapping of @jridgewell/trace-mapping: node print-mappings.js MAP. The
// microseconds from before the file is read until all is handed out go to standard error. Sources have to have names.
'use strict';

const fs = require('fs');
const { TraceMap, eachMapping } = require('@jridgewell/trace-mapping');

const begin = process.hrtime.bigint();
let waiting = '';
eachMapping(new TraceMap(fs.readFileSync(process.argv[2], 'utf8')), (mapping) => {
  const { generatedLine, generatedColumn, source, originalLine, originalColumn, name } = mapping;
  const origin = source === null ? 'unmapped' : `${source}:${originalLine}:${originalColumn + 1}`;
  waiting += `${generatedLine}:${generatedColumn + 1} ${origin}${name === null ? '' : ` name ${name}`}\n`;
  if (waiting.length >= 65536) {
    fs.writeSync(1, waiting);
    waiting = '';
  }
});
fs.writeSync(1, waiting);
console.error(`${(process.hrtime.bigint() - begin) / 1000n}`);
