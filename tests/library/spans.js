'use strict';
// The columns for which answers of the library in node hold, beside source-map after `computeColumnSpans`, and beside the mappings
// themselves, over real maps: node spans.js MAP..
const assert = require('node:assert');
const fs = require('node:fs');
const { SourceMapConsumer } = require('source-map');
const smap = require('smap');

// How many lines of sources and how many mappings of a map are asked for.
const MOST = 200;
let checks = 0;
const same = (got, wanted, what) => {
  checks += 1;
  assert.deepStrictEqual(got, wanted, what);
};

const inOrder = (places) => places.map(({ line, column, lastColumn }) => ({ line, column, lastColumn })).sort((a, b) => a.line - b.line || a.column - b.column);
const some = (list) => list.filter((_, i) => i % Math.max(1, Math.floor(list.length / MOST)) === 0);

// The columns of each generated line at which mappings begin.
function columnsOf(map) {
  const columns = new Map();
  for (const { generatedLine, generatedColumn } of map.mappings()) {
    if (!columns.has(generatedLine)) columns.set(generatedLine, []);
    columns.get(generatedLine).push(generatedColumn);
  }
  return columns;
}

const lastOf = (columns, line, column) => Math.min(...columns.get(line).filter((next) => next > column), Infinity) - 1;

// All places of lines of sources. Of mappings at one position source-map has all but the last end before it.
function compareLines(map, consumer, columns, file) {
  const lines = new Set();
  for (const { source, originalLine } of map.mappings()) if (source !== null) lines.add(`${map.resolvedSources.indexOf(source)} ${originalLine}`);
  for (const [index, line] of some([...lines]).map((text) => text.split(' ').map(Number))) {
    const source = consumer.sources[index];
    const ours = smap.generated(map, index, line);
    const theirs = consumer.allGeneratedPositionsFor({ source, line });
    theirs.forEach((place) => place.lastColumn < place.column && (place.lastColumn = lastOf(columns, place.line, place.column)));
    same(inOrder(ours), inOrder(theirs), `${file} ${source}:${line}`);
    same(ours.map(({ originalColumn }) => originalColumn), ours.map(({ originalColumn }) => originalColumn).sort((a, b) => a - b));
    same(smap.generated(map, map.sources[index], line), ours);
    for (const { originalColumn } of some(ours)) {
      const at = (places) => places.filter((place) => place.originalColumn === originalColumn);
      same(smap.generated(map, index, line, originalColumn), at(ours));
      same(smap.generated(map, index, line, originalColumn, true), at(ours));
      const first = consumer.generatedPositionFor({ source, line, column: originalColumn });
      same(at(ours).some((place) => place.line === first.line && place.column === first.column), true);
    }
  }
}

// A place holds up to the next mapping of its line, by a map, a table and maps.
function comparePlaces(map, columns, file) {
  const text = fs.readFileSync(file);
  const [table, maps] = [new smap.Table({ 'https://e.test/a.js': text }), new smap.Maps({ load: () => text, maxBytes: 1 << 28 })];
  for (const { generatedLine: line, generatedColumn: column, source } of some([...map.mappings()])) {
    if (source === null) continue;
    const lastColumn = lastOf(columns, line, column);
    for (const asked of [column, Math.min(lastColumn, column + 5)]) {
      const place = map.placeAt(line, asked);
      same(place.lastColumn, lastColumn, `${file} ${line}:${asked}`);
      for (const other of [table, maps]) same(other.lookUp('https://e.test/a.js?v=1', line, asked).lastColumn, lastColumn);
      same(lastColumn === Infinity || map.placeAt(line, lastColumn).lastColumn === lastColumn, true);
    }
  }
  table.close();
  maps.close();
}

for (const file of process.argv.slice(2)) {
  const text = fs.readFileSync(file, 'utf8');
  const map = new smap.TraceMap(text);
  if (map.sources.includes(null) || new Set(map.resolvedSources).size < map.sources.length) continue;
  const columns = columnsOf(map);
  const consumer = new SourceMapConsumer(JSON.parse(text));
  // That of an index map has no such call.
  if (consumer.computeColumnSpans) consumer.computeColumnSpans();
  if (consumer.computeColumnSpans) compareLines(map, consumer, columns, file);
  comparePlaces(map, columns, file);
}

// By hand: two mappings at one position, one without an original behind, and lines of a section.
const map = new smap.TraceMap({ version: 3, sources: ['a.js'], names: [], mappings: [[[2, 0, 0, 4], [2, 0, 0, 1], [5], [9, 0, 0, 1]], [[0, 0, 1, 0]]] });
same(smap.generated(map, 0, 1), [
  { line: 1, column: 2, lastColumn: 4, originalColumn: 1 },
  { line: 1, column: 9, lastColumn: Infinity, originalColumn: 1 },
  { line: 1, column: 2, lastColumn: 4, originalColumn: 4 },
]);
same([smap.generated(map, 0, 1, 3), smap.generated(map, 0, 1, 3, true), smap.generated(map, 0, 1, 0)].map((places) => places.map(({ column }) => column)), [[2, 9], [2], []]);
same([smap.generated(map, 'a.js', 2), smap.generated(map, 'b.js', 2), smap.generated(map, 0, 3)].map((places) => places.length), [1, 0, 0]);
same([map.placeAt(1, 4).lastColumn, map.placeAt(1, 5), map.placeAt(1, Infinity).lastColumn], [4, null, Infinity]);
assert.throws(() => smap.generated(map, 1, 1), RangeError);
for (const words of [[0.5, 1], [0, 0.5], [0, 1, '1'], [0, 1, 1, 1]]) assert.throws(() => smap.generated(map, ...words), TypeError);
console.log('spans', checks);
