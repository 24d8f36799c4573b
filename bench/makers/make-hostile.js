#!/usr/bin/env node
// Makes a text of one shape again and again that is meant to take a finder of places long, each with a place behind it.
//
//   node make-hostile.js SHAPE EVERY BYTES > TEXT
//   node make-hostile.js                      prints the names of the shapes
//   node make-hostile.js --map SHAPE BYTES > MAP
//   node make-hostile.js --map                prints the names of the shapes of maps
//
// Each stretch has the shape in EVERY bytes, or in all but the last ones, and then `app.js:1:2` and a blank. A map has one thing
// again and again that takes much memory, or long, for its bytes.
'use strict';

const fs = require('fs');

const SHAPES = {
  pairs: ':1:2',
  slashes: '/',
  backslashes: '\\',
  quotes: '"',
  apostrophes: "'a",
  brackets: '(',
  schemes: '://',
  addresses: '[::1]',
  functions: 'a@',
  colours: '\x1b[',
  escapes: '\\u005c',
  lines: 'at f (\\n',
  prefixes: 'https://h/',
  queries: '?',
  letters: 'a',
};

// As many of a piece as have so many bytes, with a comma between two.
function listed(piece, bytes) {
  return `${piece},`.repeat(Math.max(1, Math.floor(bytes / (piece.length + 1)))).slice(0, -1);
}

function map(sources, names, mappings, more = '') {
  return `{"version":3,"sources":[${sources}],"names":[${names}],"mappings":"${mappings}"${more}}`;
}

// A section of 65,536 at most that begins on this line.
function section(line) {
  return `{"offset":{"line":${line},"column":0},"map":${map('', '', 'A')}}`;
}

function sections(bytes) {
  const list = [];
  for (let line = 0, length = 0; length < bytes && line < 65536; line++) {
    list.push(section(line));
    length += list[line].length + 1;
  }
  return `{"version":3,"sections":[${list.join(',')}]}`;
}

// An object within an object, as deep as a file may have them.
const DEEP = `${'{"":'.repeat(100)}0${'}'.repeat(100)}`;

const MAPS = {
  objects: (bytes) => map('', '', '', `,"x":[${listed('{"":{}}', bytes)}]`),
  depth: (bytes) => map('', '', '', `,"x":[${listed(DEEP, bytes)}]`),
  numbers: (bytes) => map('', '', '', `,"x":[${listed('0', bytes)}]`),
  sources: (bytes) => map(listed('""', bytes), '', ''),
  root: (bytes) => map(listed('""', bytes / 256), '', '', `,"sourceRoot":"${'r'.repeat(bytes / 256)}"`),
  names: (bytes) => map('', listed('""', bytes), ''),
  contents: (bytes) => map('"a"', '', '', `,"sourcesContent":["${'\\u0000'.repeat(bytes / 6)}"]`),
  lines: (bytes) => map('', '', 'A;'.repeat(bytes / 2)),
  segments: (bytes) => map('', '', 'C,'.repeat(bytes / 2)),
  fields: (bytes) => map('"a"', '"n"', 'AAAAA,'.repeat(bytes / 6)),
  empty: (bytes) => map('', '', ';'.repeat(bytes)),
  sections,
};

function textOf(name, every, bytes) {
  const shape = SHAPES[name];
  const place = 'app.js:1:2 ';
  const length = Math.min(every, bytes - place.length);
  const one = shape.repeat(Math.max(1, Math.floor(length / shape.length))) + place;
  return one.repeat(Math.ceil(bytes / one.length)).slice(0, bytes);
}

const words = process.argv.slice(2);
const ofMaps = words[0] === '--map';
if (words.length === (ofMaps ? 1 : 0)) {
  console.log(Object.keys(ofMaps ? MAPS : SHAPES).join('\n'));
} else {
  fs.writeFileSync(1, ofMaps ? MAPS[words[1]](Number(words[2])) : textOf(...words));
}
