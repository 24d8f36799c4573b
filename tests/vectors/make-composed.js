#!/usr/bin/env node
// Makes the rows of `smap compose` of the maps in examples/. README.md beside this file says what they are.
//
//   node make-composed.js      writes its rows of smap_rows and prints the counts
//
// Nothing here is made from smap's own code or output.
'use strict';

const fs = require('fs');
const path = require('path');
const { AnyMap, encodedMappings, traceSegment } = require('@jridgewell/trace-mapping');
const { composedMap } = require('./compose.js');
const { linesOf } = require('./lookup.js');
const { file, putFile, putRows, row, run } = require('./rows.js');

const ROOT = path.join(__dirname, '..', '..');

// A row has so many bytes at most.
const MOST_BYTES = 8000;

function insist(holds, what) {
  if (!holds) throw new Error(what);
}

function withoutContents({ sourcesContent, ...rest }) {
  return rest;
}

// A map of examples/, without the contents of its sources.
function example(name) {
  const map = JSON.parse(fs.readFileSync(path.join(ROOT, 'examples', `${name}.map`), 'utf8'));
  if (!('sections' in map)) return withoutContents(map);
  return { ...map, sections: map.sections.map(({ offset, map: inner }) => ({ offset, map: withoutContents(inner) })) };
}

// The regular map that states what an index map does, as `AnyMap` joins the sections.
function regular(map) {
  if (!('sections' in map)) return map;
  const joined = new AnyMap(map, '');
  return { file: map.file, sources: joined.sources, names: joined.names, mappings: encodedMappings(joined) };
}

// ---------------------------------------------------------------------------------------------
// The rows: an outer map, a source of it, an inner map, and what they compose to.
// ---------------------------------------------------------------------------------------------

const counts = { mappings: 0, followed: 0, found: 0 };

// `traceSegment` has to find what was followed. No two mappings of an inner map stand at one place here.
function compare(outer, source, inner, written) {
  const traced = new AnyMap(inner, '');
  const after = linesOf(written.mappings);
  linesOf(outer.mappings).forEach((line, i) =>
    line.forEach((segment, j) => {
      counts.mappings += 1;
      if (segment.length === 1 || segment[1] !== source) return;
      counts.followed += 1;
      const found = traceSegment(traced, segment[2], segment[3]);
      const [, ...origin] = after[i][j];
      const wanted = found === null ? [] : found.slice(1, 4);
      const moved = origin.slice(0, 3).map((value, k) => (k === 0 ? value - outer.sources.length : value));
      insist(JSON.stringify(wanted) === JSON.stringify(moved), `traced otherwise: ${segment}`);
      counts.found += origin.length > 0 ? 1 : 0;
    }),
  );
}

function composition(outer, source, inner) {
  const [first, second] = [outer, inner].map(regular);
  const written = composedMap(first, source, second);
  compare(first, source, second, written);
  const text = JSON.stringify(written);
  insist(text.length < MOST_BYTES, `too long: ${text.length}`);
  return { outer, source, inner, text, written: JSON.parse(text) };
}

const [transpiled, comments, minified] = ['preset-react.js', 'convert-comments.cjs', 'preset-react.min.js'].map(example);
const [bundled, small, indexed] = ['modules.js', 'modules.min.js', 'bundle.js'].map(example);

const two = composition(small, 0, bundled);
const behind = composition(bundled, 0, transpiled);
const three = composition(two.written, 1, transpiled);
const other = composition(small, 0, behind.written);
insist(JSON.stringify(three.written) === JSON.stringify(other.written), 'the two ways differ');

const rows = [
  composition(minified, 0, transpiled),
  two,
  behind,
  three,
  other,
  composition(three.written, 2, comments),
  composition(bundled, 2, transpiled),
  composition(small, 0, indexed),
  composition(indexed, 1, bundled),
];

// The file of a map, which is put into data/ where it first comes.
const files = [];
function fileOf(map) {
  const text = JSON.stringify(map);
  if (!files.includes(text)) files.push(text);
  const name = `composed/${files.indexOf(text) + 1}.map`;
  putFile(name, text);
  return name;
}

putRows(
  'compose of two real maps',
  __filename,
  rows.flatMap(({ outer, source, inner, text }) => {
    const [first, second] = [fileOf(outer), fileOf(inner)];
    return [
      run(['compose', first, String(source), second], '', [0, `${text}\n`, '']),
      row(['compose', file(first), source, file(second), '%K'], [text]),
    ];
  }),
);
console.log(
  `rows ${rows.length}: mappings ${counts.mappings}, of which followed ${counts.followed}, to an origin ${counts.found}`,
);
