// Frames of a trace, rewritten line by line over maps that others read.
'use strict';

const { answerLines } = require('./lines.js');

// A reader gives what stands in place of a URL, a line and a column, from 1, or null.
const READERS = {
  trace() {
    const { TraceMap, traceSegment } = require('@jridgewell/trace-mapping');
    return (text, url) => {
      const map = new TraceMap(text, url);
      return (line, column) => {
        const segment = traceSegment(map, line - 1, column - 1);
        if (segment === null || segment.length === 1) return null;
        return `${map.resolvedSources[segment[1]]}:${segment[2] + 1}:${segment[3] + 1}`;
      };
    };
  },
  mozilla() {
    const { SourceMapConsumer } = require('source-map');
    return (text, url) => {
      const map = new SourceMapConsumer(text, url);
      return (line, column) => {
        const found = map.originalPositionFor({ line, column: column - 1 });
        return found.source === null ? null : `${found.source}:${found.line}:${found.column + 1}`;
      };
    };
  },
};

const FRAME = /^(\s*at (?:[^(]+ \(|async )?)(.+):(\d+):(\d+)(\)?)$/;

// Writes the trace on standard input with its frames rewritten. `mapOf` gives what was read of a URL's map, or undefined.
function answerFrames(mapOf) {
  answerLines((line) => {
    const frame = FRAME.exec(line);
    if (frame === null) return line;
    const find = mapOf(frame[2]);
    if (find === undefined) return line;
    const original = find(Number(frame[3]), Number(frame[4]));
    return original === null ? line : `${frame[1]}${original}${frame[5]}`;
  });
}

module.exports = { READERS, answerFrames };
