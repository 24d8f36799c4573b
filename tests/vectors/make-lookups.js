#!/usr/bin/env node
// Makes the rows of `smap lookup` and `smap positions` in one map, that of examples/. README.md beside this file says what
// they are.
//
//   node make-lookups.js       writes its rows of smap_rows and prints the counts
//
// Nothing here is made from smap's own code or output.
'use strict';

const fs = require('fs');
const path = require('path');
const { LEAST_UPPER_BOUND, TraceMap, originalPositionFor, traceSegment } = require('@jridgewell/trace-mapping');
const { SourceMapConsumer } = require('source-map');
const { checked } = require('./checker.js');
const { encoded } = require('./compose.js');
const { excerptOf } = require('./excerpt.js');
const { linesOf, answerFrom, answerOf, answersOfAll, printedLine, spread } = require('./lookup.js');
const { file, putFile, putRows, row, run } = require('./rows.js');

const NAME = 'preset-react.js.map';
const MOST = 2147483648;

function insist(holds, what) {
  if (!holds) throw new Error(what);
}

const bytes = fs.readFileSync(path.join(__dirname, '..', '..', 'examples', NAME));
const text = bytes.toString('utf8');
insist(Buffer.from(text, 'utf8').equals(bytes), 'a map that is not UTF-8');

const map = JSON.parse(text);
const lines = linesOf(map.mappings);
const found = checked(map.mappings, map.sources.length, map.names.length);
insist(found.kind === 0, 'the map is not accepted');

function trimmed(list) {
  const plain = list.map((line) => line.map((segment) => Array.from(segment)));
  while (plain.length > 0 && plain[plain.length - 1].length === 0) plain.pop();
  return JSON.stringify(plain);
}

insist(trimmed(lines) === trimmed(found.lines), 'the checker reads otherwise');

// ---------------------------------------------------------------------------------------------
// The places that are asked, all from 1.
// ---------------------------------------------------------------------------------------------

// Each mapping with its line, and the column of the next one on its line.
const all = lines.flatMap((line, i) =>
  line.map((segment, j) => ({
    line: i + 1,
    begin: segment[0] + 1,
    end: j + 1 < line.length ? line[j + 1][0] + 1 : null,
    first: j === 0,
  })),
);

const gaps = all.filter(({ begin, end }) => end !== null && end > begin + 1);
const late = all.filter(({ begin, first }) => first && begin > 1);
const ends = all.filter(({ end }) => end === null);
const empty = lines.flatMap((line, i) => (line.length === 0 ? [i + 1] : []));

// What is asked, and how many of a kind at most.
const ASKED = {
  'at a mapping': spread(all, 16).map(({ line, begin }) => [line, begin]),
  'one column on': spread(gaps, 8).map(({ line, begin }) => [line, begin + 1]),
  'one column before the next': spread(gaps, 8).map(({ line, end }) => [line, end - 1]),
  'one column before the first of a line': spread(late, 8).map(({ line, begin }) => [line, begin - 1]),
  'at the start of a line that begins later': spread(late, 5).map(({ line }) => [line, 1]),
  'past the last of a line': spread(ends, 6).map(({ line, begin }, i) => [line, begin + 10 ** i]),
  'at the largest column': spread(ends, 3).map(({ line }) => [line, MOST]),
  'on a line without mappings': spread(empty, 5).map((line, i) => [line, 1 + 10 * i]),
  'past the last line': [[lines.length + 1, 1], [lines.length + 1, 30], [MOST, 1], [MOST, MOST]],
};

// ---------------------------------------------------------------------------------------------
// The rows, each put to two other look-ups.
// ---------------------------------------------------------------------------------------------

const counts = { traced: 0, consumed: 0, equalColumns: 0, from: 0 };
const traced = new TraceMap(text);
const consumer = new SourceMapConsumer(text);

function indexOf(list, word) {
  const index = list.indexOf(word);
  insist(index >= 0, `no such text: ${word}`);
  return index;
}

function compare(line, column, answer) {
  const onLine = lines[line - 1] || [];
  if (answer !== null && onLine.filter((segment) => segment[0] === answer[0]).length > 1) {
    counts.equalColumns += 1;
    return;
  }
  const expected = printedLine(map, answer);
  const segment = traceSegment(traced, line - 1, column - 1);
  insist(printedLine(map, segment) === expected, `trace-mapping differs: ${line} ${column}`);
  counts.traced += 1;
  const said = saidOf(consumer.originalPositionFor({ line, column: column - 1 }));
  // source-map has one answer for 'none' and 'unmapped'.
  const asked = answer !== null && answer.length === 1 ? null : answer;
  insist(printedLine(map, said) === printedLine(map, asked), `source-map differs: ${line} ${column}`);
  counts.consumed += 1;
}

// What a look-up says that answers with a place and not with a mapping, which has one answer for 'none' and 'unmapped'.
function saidOf(place) {
  if (place.line === null) return null;
  const said = [0, indexOf(map.sources, place.source), place.line - 1, place.column];
  if (place.name !== null) said.push(indexOf(map.names, place.name));
  return said;
}

// In the other direction, too. Where several mappings have the asked column, trace-mapping takes the last.
function compareFrom(line, column, answer) {
  const onLine = lines[line - 1] || [];
  insist(onLine.filter((segment) => segment[0] === column - 1).length < 2, 'equal columns');
  const asked = printedLine(map, answer !== null && answer.length === 1 ? null : answer);
  const place = { line, column: column - 1 };
  const byTrace = originalPositionFor(traced, { ...place, bias: LEAST_UPPER_BOUND });
  insist(printedLine(map, saidOf(byTrace)) === asked, `trace-mapping differs from ${line} ${column}`);
  const consumed = consumer.originalPositionFor({ ...place, bias: SourceMapConsumer.LEAST_UPPER_BOUND });
  insist(printedLine(map, saidOf(consumed)) === asked, `source-map differs from ${line} ${column}`);
  counts.from += 1;
}

// The excerpt of the original line, each of its lines with an LF; nothing where no original line shows.
function shownBehind(answer) {
  if (answer === null || answer.length === 1) return '';
  const [, source, line, column] = answer;
  const content = map.sourcesContent?.[source] ?? null;
  const found = content === null ? null : excerptOf(content, line, column);
  return found === null ? '' : `${found.shown}\n${' '.repeat(found.before)}^\n`;
}

const rows = [];
const rowsFrom = [];
const seen = new Set();
const tally = {};

for (const [kind, places] of Object.entries(ASKED)) {
  for (const [line, column] of places) {
    if (seen.has(`${line}|${column}`)) continue;
    seen.add(`${line}|${column}`);
    const answer = answerOf(lines, line, column);
    compare(line, column, answer);
    const expected = printedLine(map, answer);
    rows.push({ line, column, place: expected, shown: shownBehind(answer) });
    const next = answerFrom(lines, line, column);
    compareFrom(line, column, next);
    rowsFrom.push({ line, column, place: printedLine(map, next), shown: shownBehind(next) });
    tally[kind] = (tally[kind] || 0) + 1;
  }
}

const MAP = 'example.map';
const EACH = '%K';

function lookups(flags, some) {
  return some.map(({ line, column, place, shown }) =>
    run(['lookup', ...flags, '--interval', EACH, MAP, String(line), String(column)], '', [0, `${place}\n${shown}`, '']),
  );
}

function positions(flags, some) {
  const input = some.map(({ line, column }) => `${line}:${column}\n`).join('');
  return run(['positions', ...flags, MAP], input, [0, some.map(({ place }) => `${place}\n`).join(''), '']);
}

// The map as it is written anew: with its keys in the order of their bytes, and no empty lines at the end of its mappings.
const KEYS = ['file', 'mappings', 'names', 'sources', 'sourcesContent', 'version'];
insist(Object.keys(map).sort().join() === KEYS.join(), 'a key that this map did not have');
const { asked, answers } = answersOfAll(lines.flatMap((line, i) => line.map((segment) => [i, ...segment])));

putFile(MAP, text);
putRows('lookup in a real map', __filename, lookups([], rows));
putRows('lookup --after in a real map', __filename, lookups(['--after'], rowsFrom));
putRows('positions of a real map in one run', __filename, [positions([], rows), positions(['--after'], rowsFrom)]);
putRows('The real map', __filename, [
  run(['show', MAP], '', [0, `${JSON.stringify({ ...map, mappings: encoded(lines) }, KEYS)}\n`, '']),
  row(['look_ups', file(MAP), EACH, ...asked], answers),
]);

const used = lines.filter((line) => line.length > 0).length;
// At every 64th segment of a line.
const checkpoints = lines.reduce((sum, line) => sum + Math.ceil(line.length / 64), 0);
console.log(`${NAME}: ${bytes.length} bytes`);
console.log(
  `ok sections 1 sources ${map.sources.length} names ${map.names.length} ` +
    `segments ${all.length} lines ${used} checkpoints ${checkpoints}`,
);
console.log(`${rows.length} look-ups`);
console.log(`trace-mapping agreed on ${counts.traced}, source-map's consumer on ${counts.consumed}`);
console.log(`both agreed on ${counts.from} in the other direction`);
console.log(`not compared: ${counts.equalColumns} answered among equal columns`);
console.log(tally);
