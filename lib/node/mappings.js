'use strict';
// The mappings of a map one after the other, of numbers as the addon hands them out: eight each, which are the generated line and
// column, the kind, the source, the original line and column, whether there is a name, and the name.
const addon = require('./addon.js');
const { refusedAs, refusedEncoding } = require('./refused.js');

const NUMBERS = 8;
const [UNMAPPED, MAPPED] = [1, 2];
// The greatest number of a mapping.
const LIMIT = 2147483647;
// The text of more lines is too long for a map.
const MOST_LINES = 67108865;
// A list has at most so many lines, or so many for each byte of its map, of which a few say in what line a section begins.
const [MOST_LISTED, LISTED_A_BYTE] = [1000000, 16];

// The mapping of these numbers from this one on, as trace-mapping has it.
function mappingAt(numbers, at, sources, names) {
  const isMapped = numbers[at + 2] === MAPPED;
  return {
    generatedLine: numbers[at] + 1,
    generatedColumn: numbers[at + 1],
    source: isMapped ? sources[numbers[at + 3]] : null,
    originalLine: isMapped ? numbers[at + 4] + 1 : null,
    originalColumn: isMapped ? numbers[at + 5] : null,
    name: numbers[at + 6] ? names[numbers[at + 7]] : null,
  };
}

function* each(numbers, sources, names) {
  for (let at = 0; at < numbers.length; at += NUMBERS) yield mappingAt(numbers, at, sources, names);
}

function segmentAt(numbers, at) {
  if (numbers[at + 2] !== MAPPED) return [numbers[at + 1]];
  const isNamed = numbers[at + 6] !== 0;
  if (!isNamed) return [numbers[at + 1], numbers[at + 3], numbers[at + 4], numbers[at + 5]];
  return [numbers[at + 1], numbers[at + 3], numbers[at + 4], numbers[at + 5], numbers[at + 7]];
}

function checkLines(count) {
  if (count > MOST_LINES) throw refusedAs(addon.codes.O1);
}

// The mappings of a map come in pieces of so many numbers, in one room.
const piece = new Uint32Array(NUMBERS * 4096);
const nothing = new Uint32Array(0);
const last = new Float64Array(1);

// The lines of segments of the map of this handle, which has so many bytes; how many lines those are is told by the last one with a mapping.
function decoded(handle, linesOf, bytes) {
  const size = addon.listMappings(handle, piece, last);
  try {
    const count = linesOf(last[0]);
    checkLines(count);
    const most = Math.max(MOST_LISTED, LISTED_A_BYTE * bytes);
    if (count > most) throw new RangeError(`the map has ${count} lines, and a list of at most ${most} is made of its ${bytes} bytes`);
    return listed(count, size);
  } finally {
    // Of more it is not known whether all were asked for.
    if (size === piece.length) addon.nextMappings(nothing);
  }
}

// So many lines of what is handed out, of which so many numbers stand in the room.
function listed(count, first) {
  const lines = [];
  let segments = [];
  for (let size = first; size > 0; size = size === piece.length ? addon.nextMappings(piece) : 0) {
    for (let at = 0; at < size; at += NUMBERS) {
      for (; lines.length < piece[at]; segments = []) lines.push(segments);
      segments.push(segmentAt(piece, at));
    }
  }
  for (; lines.length < count; segments = []) lines.push(segments);
  return lines;
}

function refuseLines() {
  throw new TypeError(`decoded \`mappings\` must be lines of segments, of 1, 4 or 5 whole numbers from 0 to ${LIMIT}`);
}

// The numbers of lines of segments. A place that an array leaves out is refused.
function numbersOf(lines) {
  const numbers = [];
  for (let line = 0; line < lines.length; line++) {
    if (!Array.isArray(lines[line])) refuseLines();
    for (let place = 0; place < lines[line].length; place++) putSegment(line, lines[line][place], numbers);
  }
  return Uint32Array.from(numbers);
}

function putSegment(line, segment, numbers) {
  if (!Array.isArray(segment) || ![1, 4, 5].includes(segment.length)) refuseLines();
  for (let i = 0; i < segment.length; i++) {
    if (!Number.isInteger(segment[i]) || segment[i] < 0 || segment[i] > LIMIT) refuseLines();
  }
  const [column, source = 0, originalLine = 0, originalColumn = 0, name = 0] = segment;
  const kind = segment.length === 1 ? UNMAPPED : MAPPED;
  numbers.push(line, column, kind, source, originalLine, originalColumn, segment.length === 5 ? 1 : 0, name);
}

// The line of the last mapping of these numbers, or -1.
const lastLine = (numbers) => (numbers.length ? numbers[numbers.length - NUMBERS] : -1);

// The text of the mappings of these numbers in so many lines, of which the last may have none.
function encoded(numbers, count) {
  checkLines(count);
  const refusal = new Float64Array(2);
  const text = addon.encode(numbers, refusal);
  if (text === null) throw refusedEncoding(refusal, numbers);
  return text.toString('latin1') + ';'.repeat(Math.max(count - 1 - Math.max(lastLine(numbers), 0), 0));
}

module.exports = { NUMBERS, decoded, each, encoded, lastLine, mappingAt, numbersOf };
