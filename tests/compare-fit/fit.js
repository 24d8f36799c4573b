// How a map fits a text, by other people's decoder and engine.
'use strict';

const codec = require('@jridgewell/sourcemap-codec');

const WORD = /^[\p{L}\p{M}\p{Nd}_$\u200c\u200d]$/u;
const WHOLE_WORD = /[\p{L}\p{M}\p{Nd}_$\u200c\u200d]+/uy;

// Whether a segment goes on from the one before it on its line as far in its source as in the line.
function continues(last, segment) {
  return last !== undefined && last.length > 1 && segment.length > 1 && last[1] === segment[1] && last[2] === segment[2]
    && segment[0] - last[0] === segment[3] - last[3];
}

// The character that ends before a unit of a line.
function characterBefore(line, unit) {
  const first = line.codePointAt(unit - 2);
  return unit > 1 && first > 0xffff ? String.fromCodePoint(first) : line[unit - 1];
}

function standing(lines, number, column) {
  const line = lines[number];
  if (line === undefined || column > line.length) return 'past';
  if (column === 0 || column === line.length) return 'fits';
  if (column > 0 && line.codePointAt(column - 1) > 0xffff) return 'inside';
  const both = WORD.test(characterBefore(line, column)) && WORD.test(String.fromCodePoint(line.codePointAt(column)));
  return both && !line.startsWith('${', column) ? 'inside' : 'fits';
}

// The word or the character that stands at a column of a line; nothing at its end, past it, or between two units.
function wordAt(line, column) {
  if (line === undefined || column >= line.length) return '';
  if (column > 0 && line.codePointAt(column - 1) > 0xffff) return '';
  WHOLE_WORD.lastIndex = column;
  const word = WHOLE_WORD.exec(line);
  return word ? word[0] : String.fromCodePoint(line.codePointAt(column));
}

function linesOf(text) {
  return text.replace(/^\ufeff/, '').split(/\r\n|[\n\r\u2028\u2029]/);
}

// How many segments of a map a text has; how many fresh ones stand past it or inside a word of it; how many have an origin in a
// content, how many of these past it, and at how many the same stands in both.
function fitOf(map, text) {
  const lines = linesOf(text);
  const contents = (map.sourcesContent ?? []).map((content) => (typeof content === 'string' ? linesOf(content) : undefined));
  const counts = { mappings: 0, past: 0, inside: 0, fits: 0, compared: 0, outside: 0, same: 0 };
  codec.decode(map.mappings).forEach((segments, number) => {
    counts.mappings += segments.length;
    segments.forEach((segment, i) => {
      if (!continues(segments[i - 1], segment)) counts[standing(lines, number, segment[0])] += 1;
      const content = segment.length > 1 ? contents[segment[1]] : undefined;
      if (content === undefined) return;
      counts.compared += 1;
      const original = content[segment[2]];
      if (original === undefined || segment[3] > original.length) {
        counts.outside += 1;
        return;
      }
      const there = wordAt(lines[number], segment[0]);
      if (there !== '' && there === wordAt(original, segment[3])) counts.same += 1;
    });
  });
  const { fits, ...rest } = counts;
  return rest;
}

module.exports = { fitOf };
