#!/usr/bin/env node
// Counts what map files hold, with @jridgewell/trace-mapping: each is read, decoded, reported and let go before the next.
//
//   node check-maps.js text|json < PATHS
//
// prints for each path of standard input, where a NUL follows each, what `smap check` prints of several, as text or as JSON.
// The checkpoints that smap's index of such a map has are those of its lines: one for 64 segments or fewer.
'use strict';

const fs = require('fs');
const { TraceMap, decodedMappings } = require('@jridgewell/trace-mapping');

const INTERVAL = 64;
const how = process.argv[2];

function countsOf(path) {
  const map = new TraceMap(fs.readFileSync(path, 'utf8'));
  let [checkpoints, lines, segments] = [0, 0, 0];
  for (const { length } of decodedMappings(map)) {
    checkpoints += Math.ceil(length / INTERVAL);
    lines += length > 0 ? 1 : 0;
    segments += length;
  }
  const { names, sources } = map;
  return { checkpoints, lines, names: names.length, ok: true, path, sections: 1, segments, sources: sources.length };
}

function text({ path, ...counts }) {
  const reported = ['sections', 'sources', 'names', 'segments', 'lines', 'checkpoints'].map((what) => `${what} ${counts[what]}`);
  return `${path}: ok ${reported.join(' ')}`;
}

const line = how === 'json' ? JSON.stringify : text;
const paths = fs.readFileSync(0, 'utf8').split('\0').slice(0, -1);
for (const path of paths) fs.writeSync(1, `${line(countsOf(path))}\n`);
