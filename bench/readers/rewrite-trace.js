#!/usr/bin/env node
// Rewrites a trace line by line, with one of two readers of maps, all of which are read first.
//
//   node rewrite-trace.js trace|mozilla URL=MAP.. < TRACE
//
// `trace` is @jridgewell/trace-mapping, `mozilla` is source-map.
'use strict';

const fs = require('fs');
const { READERS, answerFrames } = require('./frames.js');

const [how, ...words] = process.argv.slice(2);
const read = READERS[how]();
const maps = new Map();
for (const word of words) {
  const at = word.lastIndexOf('=');
  const url = word.slice(0, at);
  maps.set(url, read(fs.readFileSync(word.slice(at + 1), 'utf8'), url));
}

answerFrames((url) => maps.get(url));
