#!/usr/bin/env node
// Composes maps with @ampproject/remapping: an inner map with source number SOURCE of the outer one, from 0, or the maps of
// LIST with the sources that they are named for, a source's name, a TAB and a file on each line.
//
//   node compose-maps.js OUTER SOURCE INNER
//   node compose-maps.js OUTER LIST
//
// prints the microseconds from before the files are read until the text is there to standard error, and the text to
// standard output.
'use strict';

const fs = require('fs');
const remapping = require('@ampproject/remapping');

const [outerFile, ...rest] = process.argv.slice(2);

const begin = process.hrtime.bigint();
const read = (file) => fs.readFileSync(file, 'utf8');
const outer = read(outerFile);
const map = remapping(outer, rest.length === 1 ? loaded(rest[0]) : composed(...rest));
const text = map.toString();
const took = process.hrtime.bigint() - begin;
console.error(`${took / 1000n}`);
process.stdout.write(`${text}\n`);

// It asks for the map of each source in their order, and then for those of the inner map's sources.
function composed(source, innerFile) {
  const inner = read(innerFile);
  let asked = -1;
  return (_, { depth }) => (depth === 1 && (asked += 1) === Number(source) ? inner : null);
}

// It asks by the name of the source.
function loaded(list) {
  const lines = read(list).split('\n').filter((line) => line !== '');
  const files = new Map(lines.map((line) => line.split('\t')));
  return (source, { depth }) => (depth === 1 && files.has(source) ? read(files.get(source)) : null);
}
