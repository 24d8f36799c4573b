#!/usr/bin/env node
// Writes the vectors of original places: which generated places come from each of them, in both directions, by
// @jridgewell/trace-mapping, and in one direction by Mozilla's source-map too. README.md beside this file says what they are.
//
//   node make-originals.js       writes its rows of smap_rows and prints the counts
//
// Nothing here is made from smap's own code or output.
'use strict';

const fs = require('fs');
const path = require('path');
const { AnyMap, GREATEST_LOWER_BOUND, LEAST_UPPER_BOUND, allGeneratedPositionsFor, encodedMappings } = require('@jridgewell/trace-mapping');
const { decode } = require('@jridgewell/sourcemap-codec');
const { SourceMapConsumer } = require('source-map');
const { file, putRows, row } = require('./rows.js');

const DATA = path.join(__dirname, '..', '..', 'crates', 'smap_rows', 'data');
const NAMES = [
  'example.map',
  ...['composed', 'index'].flatMap((folder) => fs.readdirSync(path.join(DATA, folder)).sort().map((name) => `${folder}/${name}`)),
];
// How many lines of one source are asked at most, and how many columns.
const MOST_LINES = 12;
const MOST_COLUMN = 120;

function insist(holds, what) {
  if (!holds) throw new Error(what);
}

// The map with a name of its own for each source, by which both readers are asked.
let sources = 0;
function renamed(map) {
  if (map.sections) return { ...map, sections: map.sections.map((section) => ({ ...section, map: renamed(section.map) })) };
  const { sourceRoot, sourcesContent, ignoreList, ...rest } = map;
  return { ...rest, names: map.names ?? [], sources: map.sources.map(() => `s${sources++}`) };
}

// How many mappings a map has, and those of its sections.
function countOf(map) {
  if (map.sections) return map.sections.reduce((sum, section) => sum + countOf(section.map), 0);
  return decode(map.mappings).flat().length;
}

function placeText({ line, column }) {
  return `${line - 1}:${column}`;
}

// From which columns on other places answer.
function changes(answerAt, mostColumn) {
  let [text, last] = ['', null];
  for (let column = 0; column <= mostColumn; column++) {
    const answer = answerAt(column).map(placeText).join(' ') || 'none';
    if (answer !== last) text += `${column}: ${answer}; `;
    last = answer;
  }
  return text;
}

// Mozilla's reader gives them in the order of the places.
function sorted(places) {
  return places.map(placeText).sort().join(' ');
}

// Where the mappings of a source stand.
function placesOf(lines, source) {
  return new Set(lines.flatMap((line, i) => line.filter((segment) => segment[1] === source).map((segment) => `${i}:${segment[0]}`)));
}

// Where those of a line of it stand, in the order of the map.
function onLine(lines, source, original) {
  return lines.flatMap((line, i) => line.filter((segment) => segment[1] === source && segment[2] === original).map((segment) => `${i}:${segment[0]}`));
}

const counts = { maps: 0, rows: 0, places: 0, none: 0, crossed: 0 };
const rows = [];
for (const name of NAMES) {
  const stated = JSON.parse(fs.readFileSync(path.join(DATA, name), 'utf8'));
  sources = 0;
  const map = renamed(stated);
  const traced = new AnyMap(map);
  const lines = decode(encodedMappings(traced));
  // trace-mapping drops a mapping that stands at the offset of the next section.
  if (lines.flat().length < countOf(stated)) continue;
  const list = lines.flat().filter((segment) => segment.length > 1);
  const consumed = new SourceMapConsumer({ version: 3, sources: traced.sources, names: traced.names, mappings: encodedMappings(traced) });
  counts.maps++;
  for (const source of new Set(list.map((segment) => segment[1]))) {
    const origins = list.filter((segment) => segment[1] === source);
    const first = Math.max(0, Math.min(...origins.map((segment) => segment[2])) - 1);
    const mostColumn = Math.min(MOST_COLUMN, Math.max(...origins.map((segment) => segment[3])) + 2);
    const of = placesOf(lines, source);
    const asked = traced.sources[source];
    const fields = [];
    for (let line = first; line < first + MOST_LINES; line++) {
      for (const bias of [GREATEST_LOWER_BOUND, LEAST_UPPER_BOUND]) {
        const answerAt = (column) => {
          const needle = { source: asked, line: line + 1, column };
          const places = allGeneratedPositionsFor(traced, { ...needle, bias });
          if (bias === LEAST_UPPER_BOUND) {
            // Behind the last of a source, Mozilla's reader goes on to the same line of the next one.
            const all = consumed.allGeneratedPositionsFor(needle);
            const own = all.filter((place) => places.length > 0 && of.has(placeText(place)));
            insist(sorted(own) === sorted(places), `${name}: the readers answer otherwise`);
            counts.crossed += all.length > own.length ? 1 : 0;
          }
          counts.places += places.length;
          counts.none += places.length === 0 ? 1 : 0;
          return places;
        };
        fields.push(changes(answerAt, mostColumn));
      }
      fields.push(onLine(lines, source, line).join(' '));
    }
    rows.push(row(['originals', file(name), source, first, MOST_LINES, mostColumn], fields));
  }
}
counts.rows = rows.length;
putRows('Original places', __filename, rows);
console.log(counts);
