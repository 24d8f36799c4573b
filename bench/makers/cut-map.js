#!/usr/bin/env node
// Makes a large index map of a real map, and a regular map that states the same.
//
//   node cut-map.js MAP BYTES SECTIONS INDEX REGULAR
//
// writes an index map of about so many bytes to INDEX and the regular map to REGULAR, and prints four lines: what
// `smap check` is to say of each, a position near the end (LINE COLUMN, from 1), and what `smap lookup` is to say
// there.
//
// The real map's segments are repeated, copy below copy, and cut into sections of as many segments each, most of
// which begin inside a line. A section has the sources and names that it uses; the regular map has those of all
// sections, one behind another. The contents of the sources are left out.
'use strict';

const fs = require('fs');
const codec = require('@jridgewell/sourcemap-codec');
const { linesOf, printedLine } = require('../../tests/vectors/lookup.js');

const [from, bytes, sectionCount, toIndex, toRegular] = process.argv.slice(2);
const map = JSON.parse(fs.readFileSync(from, 'utf8'));
const lines = linesOf(map.mappings);
const copy = lines.flatMap((line, number) => line.map((segment) => ({ number, segment })));

// The mapping at a place of the list of all copies.
function mappingAt(place) {
  const { number, segment } = copy[place % copy.length];
  return { line: Math.floor(place / copy.length) * lines.length + number, segment };
}

const spelled = new Map();

function spelling(value) {
  if (!spelled.has(value)) spelled.set(value, codec.encode([[[value]]]));
  return spelled.get(value);
}

// A `mappings` string that grows at its end. The first line of a section counts from its offset.
class Text {
  constructor({ line, column }) {
    this.line = line;
    this.column = column;
    this.origin = [0, 0, 0, 0];
    this.follows = false;
    this.pieces = [];
  }

  push(line, column, origin) {
    let piece = '';
    if (line > this.line) {
      piece = ';'.repeat(line - this.line);
      this.line = line;
      this.column = 0;
    } else if (this.follows) {
      piece = ',';
    }
    piece += spelling(column - this.column);
    this.column = column;
    origin.forEach((value, i) => {
      piece += spelling(value - this.origin[i]);
      this.origin[i] = value;
    });
    this.pieces.push(piece);
    this.follows = true;
  }

  // What was added since the last time.
  take() {
    const text = this.pieces.join('');
    this.pieces = [];
    return text;
  }
}

// The entries that a section uses, in the order of their first use, with their numbers in the whole.
class Entries {
  constructor(all) {
    this.all = all;
    this.texts = [];
    this.numbers = new Map();
  }

  numberOf(given) {
    if (!this.numbers.has(given)) {
      this.numbers.set(given, this.texts.length);
      this.texts.push(this.all[given]);
    }
    return this.numbers.get(given);
  }
}

// Both maps, of so many segments.
function make(total) {
  const sections = [];
  const sources = [];
  const names = [];
  const text = new Text({ line: 0, column: 0 });
  const texts = [];
  const used = { index: 0, regular: 0 };
  // At every 64th segment of a line.
  const checkpoints = { index: 0, regular: 0 };
  let last = -1;
  let onLast = 0;
  for (let i = 0; i < sectionCount; i++) {
    const begin = Math.floor((i * total) / sectionCount);
    const end = Math.floor(((i + 1) * total) / sectionCount);
    const first = mappingAt(begin);
    const offset = i === 0 ? { line: 0, column: 0 } : { line: first.line, column: first.segment[0] };
    const own = { text: new Text(offset), sources: new Entries(map.sources), names: new Entries(map.names) };
    let lastOfOwn = -1;
    let onLastOfOwn = 0;
    for (let place = begin; place < end; place++) {
      const { line, segment } = mappingAt(place);
      const [column, source, originalLine, originalColumn, name] = segment;
      const origin = segment.length === 1 ? [] : [own.sources.numberOf(source), originalLine, originalColumn];
      if (segment.length === 5) origin.push(own.names.numberOf(name));
      own.text.push(line, column, origin);
      if (origin.length > 0) origin[0] += sources.length;
      if (origin.length > 3) origin[3] += names.length;
      text.push(line, column, origin);
      if (line !== lastOfOwn) {
        used.index += 1;
        onLastOfOwn = 0;
      }
      if (line !== last) {
        used.regular += 1;
        onLast = 0;
      }
      if (onLastOfOwn % 64 === 0) checkpoints.index += 1;
      if (onLast % 64 === 0) checkpoints.regular += 1;
      onLastOfOwn += 1;
      onLast += 1;
      lastOfOwn = line;
      last = line;
    }
    texts.push(text.take());
    const entries = { sources: own.sources.texts, names: own.names.texts };
    for (const source of entries.sources) sources.push(source);
    for (const name of entries.names) names.push(name);
    sections.push({ offset, map: { version: 3, ...entries, mappings: own.text.take() } });
  }
  const regular = { version: 3, sources, names, mappings: texts.join('') };
  return { index: { version: 3, sections }, regular, used, checkpoints };
}

// As many segments as give so many bytes, by a try.
const guess = Math.round((copy.length * bytes) / map.mappings.length);
const total = Math.round((guess * bytes) / JSON.stringify(make(guess).index).length);
const made = make(total);
fs.writeFileSync(toIndex, JSON.stringify(made.index));
fs.writeFileSync(toRegular, JSON.stringify(made.regular));

function counts(sections, used, checkpoints) {
  const { sources, names } = made.regular;
  return (
    `ok sections ${sections} sources ${sources.length} names ${names.length} ` +
    `segments ${total} lines ${used} checkpoints ${checkpoints}`
  );
}

console.log(counts(sectionCount, made.used.index, made.checkpoints.index));
console.log(counts(1, made.used.regular, made.checkpoints.regular));

// The last mapping but one that has a name where there is one, and its column for itself.
function isAlone(place) {
  const { line, segment } = mappingAt(place);
  return [place - 1, place + 1].every((other) => {
    const beside = mappingAt(other);
    return beside.line !== line || beside.segment[0] !== segment[0];
  });
}

let asked = total - 2;
while (mappingAt(asked).segment.length < (map.names.length > 0 ? 5 : 4) || !isAlone(asked)) asked -= 1;
const { line, segment } = mappingAt(asked);
console.log(`${line + 1} ${segment[0] + 1}`);
console.log(printedLine(map, segment));
