#!/usr/bin/env node
// Makes a log of JSON lines, of which one in a hundred has a place of a trace.
//
//   node make-log.js MEGABYTES TRACE > LOG
'use strict';

const fs = require('fs');

const [megabytes, trace] = process.argv.slice(2);
const places = fs
  .readFileSync(trace, 'utf8')
  .split('\n')
  .filter((line) => line.includes('http'))
  .slice(0, 10000)
  .map((line) => line.split(' ').pop().replace(/^\(|\)$/g, ''));

const PLAIN =
  '{"level":30,"time":1700000000000,"pid":4711,"hostname":"web-1","msg":"GET /orders/1234 200 in 12.5 ms","ip":"10.0.0.7:443"}\n';
const PLAIN_LINES = PLAIN.repeat(99);

function failing(place) {
  return `{"level":50,"time":1700000000000,"pid":4711,"err":{"stack":"TypeError: x\\n    at f (${place})"},"hostname":"web-1"}\n`;
}

for (let [written, n] = [0, 0]; written < megabytes * 1e6; n += 1) {
  const block = PLAIN_LINES + failing(places[n % places.length]);
  fs.writeSync(1, block);
  written += block.length;
}
