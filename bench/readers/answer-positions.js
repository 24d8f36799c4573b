#!/usr/bin/env node
// Answers positions line by line with @jridgewell/trace-mapping, as `smap positions` does.
//
//   node answer-positions.js text|json URL MAP < POSITIONS
'use strict';

const fs = require('fs');
const { answerLines } = require('./lines.js');
const { TraceMap, traceSegment } = require('@jridgewell/trace-mapping');

const [how, url, file] = process.argv.slice(2);
const text = fs.readFileSync(file, 'utf8');
const map = new TraceMap(text, url);
const ignored = new Set(JSON.parse(text).ignoreList ?? []);

function asText(segment) {
  if (segment === null) return 'none';
  if (segment.length === 1) return 'unmapped';
  const name = segment.length === 5 ? ` name ${map.names[segment[4]]}` : '';
  const end = ignored.has(segment[1]) ? ' ignored' : '';
  return `${map.resolvedSources[segment[1]]}:${segment[2] + 1}:${segment[3] + 1}${name}${end}`;
}

function asJson(segment, line, column) {
  if (segment === null) return JSON.stringify({ answer: 'none', column, line });
  const generatedColumn = segment[0] + 1;
  if (segment.length === 1) return JSON.stringify({ answer: 'unmapped', column, generatedColumn, line });
  return JSON.stringify({
    answer: 'found',
    column,
    generatedColumn,
    ignored: ignored.has(segment[1]),
    line,
    name: segment.length === 5 ? map.names[segment[4]] : null,
    originalColumn: segment[3] + 1,
    originalLine: segment[2] + 1,
    source: map.resolvedSources[segment[1]],
    sourceIndex: segment[1],
  });
}

const answer = how === 'json' ? asJson : asText;
answerLines((text) => {
  const blank = text.indexOf(' ');
  const line = Number(text.slice(0, blank));
  const column = Number(text.slice(blank + 1));
  return answer(traceSegment(map, line - 1, column - 1), line, column);
});
