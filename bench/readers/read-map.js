#!/usr/bin/env node
// Reads a map with one of four readers, and looks one position up.
//
//   node read-map.js json|node|trace|any MAP LINE COLUMN
//
// prints the microseconds from before the file is read until the answer is there, and the answer as
// `smap lookup` prints it; `json` only reads the JSON, and has no answer. `any` is for index maps too.
'use strict';

const fs = require('fs');

const [how, file, line, column] = process.argv.slice(2);

function shown(source, originalLine, originalColumn, name) {
  return `${source}:${originalLine + 1}:${originalColumn + 1}${name ? ` name ${name}` : ''}`;
}

function traced(map) {
  const { traceSegment } = require('@jridgewell/trace-mapping');
  const [, source, originalLine, originalColumn, name] = traceSegment(map, line - 1, column - 1);
  return shown(map.sources[source], originalLine, originalColumn, map.names[name]);
}

const READERS = {
  json() {
    return (text) => {
      JSON.parse(text);
      return '-';
    };
  },
  node() {
    const { SourceMap } = require('module');
    return (text) => {
      const entry = new SourceMap(JSON.parse(text)).findEntry(line - 1, column - 1);
      return shown(entry.originalSource, entry.originalLine, entry.originalColumn, entry.name);
    };
  },
  trace() {
    const { TraceMap } = require('@jridgewell/trace-mapping');
    return (text) => traced(new TraceMap(text));
  },
  any() {
    const { AnyMap } = require('@jridgewell/trace-mapping');
    return (text) => traced(new AnyMap(text));
  },
};

const read = READERS[how]();
const begin = process.hrtime.bigint();
const answer = read(fs.readFileSync(file, 'utf8'));
const took = process.hrtime.bigint() - begin;
console.log(`${took / 1000n} ${answer}`);
