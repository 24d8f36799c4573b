'use strict';
// The calls of @jridgewell/trace-mapping, and look-ups of many positions at once.
const addon = require('./addon.js');
const given = require('./given.js');
const { TraceMap, ask, columnOf, encodedMappings, linesOf, once, open, withMappings } = require('./map.js');
const { NUMBERS, decoded, mappingAt } = require('./mappings.js');

const GREATEST_LOWER_BOUND = 1;
const LEAST_UPPER_BOUND = -1;

// What a look-up is asked and answers: the line, the column, whether in the other direction, and from the fourth on the seven
// numbers of an answer. Of an original place, which is asked by OF_ORIGINAL and the direction, the fourth is its source; what is
// answered there is whether there are generated places, their original column, and the line and the column of the first and the last.
const { room } = addon;
const OF_ORIGINAL = 2;

// Where the generated position comes from: {source, line, column, name}, all null where nothing answers or what answers
// has no original. A column past the line's end, and Infinity, has the line's last mapping.
function originalPositionFor(map, { line, column, bias }) {
  ask(open(map), given.line(line), given.column(column), given.isAfter(bias) ? 1 : 0);
  if (room[3] !== 2) return { source: null, line: null, column: null, name: null };
  // These first: where a text is made, a setter of the user's may look up something else.
  const originalLine = room[6] + 1;
  const originalColumn = room[7];
  const name = room[8] ? room[9] : undefined;
  return {
    source: map.sourceAt(room[5]),
    line: originalLine,
    column: originalColumn,
    name: name === undefined ? null : map.nameAt(name),
  };
}

// The segment that answers at a line and a column, both from 0, as in decoded mappings, or null.
function traceSegment(map, line, column) {
  const handle = open(map);
  const line0 = given.lineFromZero(line);
  if (typeof column === 'number' && column < 0) return null;
  ask(handle, line0, given.column(column), 0);
  if (room[3] === 0) return null;
  if (room[3] === 1) return [room[4]];
  return room[8] ? [room[4], room[5], room[6], room[7], room[9]] : [room[4], room[5], room[6], room[7]];
}

// Looks many positions up. `positions` is a Uint32Array of a line, from 1, and a column, from 0, each; the answers are seven
// numbers each: the kind (0 nothing, 1 without an original, 2 with one), the generated column, source, line from 1 and column
// from 0, whether there is a name (1 or 0), and the name. What there is not is 0.
function lookUpMany(map, positions) {
  const handle = open(map);
  const asked = given.positions(positions);
  return addon.lookUpMany(handle, asked, new Uint32Array((asked.length / 2) * 7));
}

// Calls the function with each mapping.
function eachMapping(map, call) {
  const numbers = addon.mappings(open(map));
  const { resolvedSources, names } = map;
  for (let at = 0; at < numbers.length; at += NUMBERS) call(mappingAt(numbers, at, resolvedSources, names));
}

// The mappings as lines of segments.
function decodedMappings(map) {
  return once(map, 'decoded', (handle) => decoded(handle, (last) => linesOf(map, last), map.inner.bytes));
}

const decodedMap = (map) => withMappings(map, decodedMappings(map));
const encodedMap = (map) => withMappings(map, encodedMappings(map));

// A map or an index map: both are read alike.
function AnyMap(map, mapUrl, options) {
  return new TraceMap(map, mapUrl, options);
}

// The number of the first source that the map calls so, or else the first of this name, or -1.
function sourceNumber(map, source) {
  const index = map.sources.indexOf(given.sourceName(source));
  return index < 0 ? map.resolvedSources.indexOf(source) : index;
}

// The directions in which an original column is looked for, of the library, and for all of the line; and how many numbers are given of a
// place, with its original or with the columns for which it holds.
const AT_OR_BEFORE = 0;
const AT_OR_AFTER = 1;
const OF_LINE = 2;
const PLACE = 4;

// Where the original position stands in the generated file: {line, column}, both null where it does not. Of several places, which all
// have the original column next to the asked one, trace-mapping takes the first, but the last with LEAST_UPPER_BOUND at this very
// column, and before it.
function generatedPositionFor(map, { source, line, column, bias }) {
  const handle = open(map);
  const index = sourceNumber(map, source);
  const isAfter = given.isAfter(bias);
  const [line0, column0] = [given.line(line), given.column(column)];
  if (index < 0) return { line: null, column: null };
  room[3] = index;
  ask(handle, line0, column0, OF_ORIGINAL + (isAfter ? AT_OR_AFTER : AT_OR_BEFORE));
  if (room[3] === 0) return { line: null, column: null };
  const isFirst = (room[4] === column) !== isAfter;
  return isFirst ? { line: room[5] + 1, column: room[6] } : { line: room[7] + 1, column: room[8] };
}

// All places of the generated file where the original position stands, at the original column next to the asked one.
function allGeneratedPositionsFor(map, { source, line, column, bias }) {
  const handle = open(map);
  const index = sourceNumber(map, source);
  const [line0, column0] = [given.line(line), given.column(column)];
  const towards = given.isAfter(bias, true) ? AT_OR_AFTER : AT_OR_BEFORE;
  if (index < 0) return [];
  const places = addon.generated(handle, index, line0, column0, towards);
  return Array.from({ length: places.length / PLACE }, (_, i) => ({ line: places[i * PLACE] + 1, column: places[i * PLACE + 1] }));
}

// The generated places of a line of a source, by its number from 0 or its name: those at the greatest original column at or before this one,
// or with `after` at the least at or after it; without a column all of the line, by their original columns. Each is {line, column, lastColumn,
// originalColumn}: it holds up to the last column, or Infinity.
function generated(map, source, line, column, after = false) {
  const handle = open(map);
  const index = typeof source === 'string' ? sourceNumber(map, source) : given.source(source);
  const [line0, column0] = [given.line(line), column === undefined ? 0 : given.column(column)];
  const towards = given.boolean(after, 'after') ? AT_OR_AFTER : AT_OR_BEFORE;
  if (index < 0) return [];
  const spans = addon.generatedSpans(handle, index, line0, column0, column === undefined ? OF_LINE : towards);
  return Array.from({ length: spans.length / PLACE }, (_, i) => {
    const [generatedLine, generatedColumn, last, originalColumn] = spans.subarray(i * PLACE, i * PLACE + PLACE);
    return { line: generatedLine + 1, column: generatedColumn, lastColumn: columnOf(last), originalColumn };
  });
}

// The name and the content of the source of this number, from 0, where the map has them.
const sourceName = (map, index) => addon.sourceName(open(map), given.source(index));
const sourceContent = (map, index) => addon.sourceContent(open(map), given.source(index));

// The content of this source, where the map has both.
function sourceContentFor(map, source) {
  const handle = open(map);
  const index = sourceNumber(map, source);
  return index < 0 ? null : addon.sourceContent(handle, index);
}

// Whether the map says that a debugger should pass over this source.
function isIgnored(map, source) {
  const handle = open(map);
  const index = sourceNumber(map, source);
  return index >= 0 && addon.isIgnored(handle, index);
}

module.exports = {
  AnyMap,
  FlattenMap: AnyMap,
  GREATEST_LOWER_BOUND,
  LEAST_UPPER_BOUND,
  allGeneratedPositionsFor,
  decodedMap,
  decodedMappings,
  eachMapping,
  encodedMap,
  encodedMappings,
  generated,
  generatedPositionFor,
  isIgnored,
  lookUpMany,
  originalPositionFor,
  presortedDecodedMap: AnyMap,
  sourceContent,
  sourceContentFor,
  sourceName,
  traceSegment,
};
