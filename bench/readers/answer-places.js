#!/usr/bin/env node
// Answers places line by line in JSON with @jridgewell/trace-mapping over a folder of maps, each of which is read when a line first
// names its URL, and kept, as `smap locate --json` does.
//
//   node answer-places.js PREFIX=FOLDER/ < PLACES
'use strict';

const fs = require('fs');
const { answerLines } = require('./lines.js');
const { TraceMap, traceSegment } = require('@jridgewell/trace-mapping');

const word = process.argv[2];
const at = word.lastIndexOf('=');
const [prefix, folder] = [word.slice(0, at), word.slice(at + 1)];

function readMap(url) {
  const text = fs.readFileSync(`${folder}${url.slice(prefix.length)}.map`, 'utf8');
  return { map: new TraceMap(text, url), ignored: new Set(JSON.parse(text).ignoreList ?? []) };
}

function answer({ map, ignored }, url, line, column) {
  const segment = traceSegment(map, line - 1, column - 1);
  if (segment === null) return JSON.stringify({ answer: 'none', column, line, url });
  const generatedColumn = segment[0] + 1;
  if (segment.length === 1) return JSON.stringify({ answer: 'unmapped', column, generatedColumn, line, url });
  return JSON.stringify({
    answer: 'found',
    column,
    generatedColumn,
    ignored: ignored.has(segment[1]),
    line,
    name: segment.length === 5 ? map.names[segment[4]] : null,
    originalColumn: segment[3] + 1,
    originalLine: segment[2] + 1,
    source: map.resolvedSources[segment[1]],
    sourceIndex: segment[1],
    url,
  });
}

const maps = new Map();
answerLines((text) => {
  const second = text.lastIndexOf(':');
  const first = text.lastIndexOf(':', second - 1);
  const url = text.slice(0, first);
  if (!maps.has(url)) maps.set(url, readMap(url));
  return answer(maps.get(url), url, Number(text.slice(first + 1, second)), Number(text.slice(second + 1)));
});
