#!/usr/bin/env node
// Makes the maps of a bundle of many modules, pieces of a real map with their texts:
//
//   src/N.ts -> build/N.js, a map of about SEGMENTS segments each -> dist/bundle.js, one map over all build/N.js
//
//   node make-bundle.js MAP COUNT SEGMENTS FOLDER
//
// writes these maps and FOLDER/list, each line of which is a source of the bundle's map, a TAB and the file of its map. It
// prints what `smap check` is to say of the map that all of them compose to, pruned. The generated file stands beside MAP.
'use strict';

const fs = require('fs');
const path = require('path');
const codec = require('@jridgewell/sourcemap-codec');

const [from, count, segments, folder] = process.argv.slice(2);
const real = JSON.parse(fs.readFileSync(from, 'utf8'));
const text = fs.readFileSync(from.replace(/\.map$/, ''), 'utf8').split('\n');

// The lines that have mappings, each with those of the source of its first one, one at a column; and that source.
const lines = codec.decode(real.mappings).flatMap((line, i) => {
  const origins = line.filter((segment) => segment.length > 1);
  if (origins.length === 0) return [];
  const source = origins[0][1];
  const own = origins.filter((segment, j) => segment[1] === source && (j === 0 || origins[j - 1][0] < segment[0]));
  return [{ source, own, text: text[i] ?? '' }];
});

// The lines from one on that are of its source and have so many segments, or null where there are no so many.
function piece(first) {
  let number = 0;
  for (let i = first; i < lines.length && lines[i].source === lines[first].source; i += 1) {
    number += lines[i].own.length;
    if (number >= segments) return lines.slice(first, i + 1);
  }
  return null;
}

const pieces = lines.map((_, first) => piece(first)).filter((some) => some !== null);
if (pieces.length === 0) throw new Error(`no source of the map has ${segments} segments`);

// The map of a module of these lines, with the text that it was made from.
function moduleOf(name, some) {
  const origins = some.flatMap(({ own }) => own);
  const top = origins.reduce((least, segment) => Math.min(least, segment[2]), Infinity);
  const bottom = origins.reduce((most, segment) => Math.max(most, segment[2]), 0);
  const content = real.sourcesContent[some[0].source].split('\n').slice(top, bottom + 1).join('\n');
  const names = new Map();
  const numberOf = (text) => names.get(text) ?? names.set(text, names.size).get(text);
  const moved = ([column, , line, original, ...named]) => [
    column,
    0,
    line - top,
    original,
    ...named.map((index) => numberOf(real.names[index])),
  ];
  const mappings = codec.encode(some.map(({ own }) => own.map(moved)));
  return {
    version: 3,
    file: `${name}.js`,
    sources: [`../src/${name}.ts`],
    sourcesContent: [content],
    names: [...names.keys()],
    mappings,
  };
}

const write = (to, map) => fs.writeFileSync(path.join(folder, to), JSON.stringify(map));
fs.mkdirSync(path.join(folder, 'build'));
fs.mkdirSync(path.join(folder, 'dist'));

const bundle = { version: 3, file: 'bundle.js', sources: [], sourcesContent: [], names: [] };
const bundled = [];
const names = new Set();
let list = '';
for (let i = 0; i < count; i += 1) {
  const some = pieces[Math.floor((i * pieces.length) / count)];
  const inner = moduleOf(`${i}`, some);
  const file = path.join('build', `${i}.js.map`);
  write(file, inner);
  inner.names.forEach((name) => names.add(name));
  list += `../build/${i}.js\t${path.join(folder, file)}\n`;
  bundle.sources.push(`../build/${i}.js`);
  bundle.sourcesContent.push(some.map((line) => line.text).join('\n'));
  some.forEach(({ own }, line) => bundled.push(own.map(([column]) => [column, i, line, column])));
  bundled.push([]);
}
write('dist/bundle.js.map', { ...bundle, mappings: codec.encode(bundled.slice(0, -1)) });
fs.writeFileSync(path.join(folder, 'list'), list);

const used = bundled.filter((line) => line.length > 0);
const all = used.reduce((sum, line) => sum + line.length, 0);
// At every 64th segment of a line.
const checkpoints = used.reduce((sum, line) => sum + Math.ceil(line.length / 64), 0);
console.log(
  `ok sections 1 sources ${count} names ${names.size} segments ${all} lines ${used.length} checkpoints ${checkpoints}`,
);
