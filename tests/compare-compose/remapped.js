#!/usr/bin/env node
// Composes maps with @ampproject/remapping and a loader: each source of the outer map that a LIST names has the map of the
// file that stands beside it.
//
//   node remapped.js OUTER LIST [LIST]
//
// prints the composed map. A second LIST is of the sources of the inner maps, by the names that they have in the composed
// map. A line of a LIST is a source's name, a TAB and a file, which is taken from where this runs.
'use strict';

const fs = require('fs');
const remapping = require('@ampproject/remapping');

// The files by the names of their sources.
function filesIn(list) {
  const lines = fs.readFileSync(list, 'utf8').split('\n').filter((line) => line !== '');
  return new Map(lines.map((line) => line.split('\t')));
}

// It asks for the map of each source of the outer map, and then for those of the sources of what it got, one step deeper
// each time.
function remapped(outer, steps) {
  const asked = new Set();
  const loaded = (source, { depth }) => {
    const file = steps[depth - 1]?.get(source);
    if (file === undefined) return null;
    asked.add(file);
    return fs.readFileSync(file, 'utf8');
  };
  const map = remapping(fs.readFileSync(outer, 'utf8'), loaded);
  const left = steps.flatMap((files) => [...files.values()]).filter((file) => !asked.has(file));
  if (left.length > 0) throw new Error(`no source has the map ${left[0]}`);
  return map;
}

if (require.main === module) {
  const [outer, ...lists] = process.argv.slice(2);
  console.log(remapped(outer, lists.map(filesIn)).toString());
}

module.exports = { filesIn, remapped };
