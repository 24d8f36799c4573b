#!/usr/bin/env node
// Compares a map that `smap compose` wrote with what @ampproject/remapping wrote of the same two maps.
//
//   node same-places.js BY_SMAP BY_REMAPPING
//
// prints how many mappings the two have, and fails where one of the second leads to another place in the first: to
// another original line, column, name, or file, of which only the last part of the path is compared, since remapping
// resolves the names of the sources. Where the second skips mappings that lead nowhere the first may have more.
'use strict';

const fs = require('fs');
const codec = require('@jridgewell/sourcemap-codec');

function mapIn(file) {
  const map = JSON.parse(fs.readFileSync(file, 'utf8'));
  return { ...map, lines: codec.decode(map.mappings) };
}

function placeOf({ sources, names }, [, source, line, column, name]) {
  if (source === undefined) return 'unmapped';
  return `${sources[source].split('/').pop()}:${line}:${column}:${name === undefined ? '' : names[name]}`;
}

const [one, other] = process.argv.slice(2).map(mapIn);
let [all, differ] = [0, 0];
other.lines.forEach((line, i) => {
  let j = 0;
  const own = one.lines[i];
  for (const segment of line) {
    while (j + 1 < own.length && own[j + 1][0] <= segment[0]) j += 1;
    all += 1;
    if (placeOf(one, own[j]) !== placeOf(other, segment)) differ += 1;
  }
});
console.log(`mappings by smap ${one.lines.flat().length}, by remapping ${all}, of which ${differ} lead elsewhere`);
if (differ > 0) process.exitCode = 1;
