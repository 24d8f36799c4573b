// The mappings of a map, decoded into lists of numbers that stand beside each other.
import { firstWhere } from './search.js';
export { byOrigin, decodeMappings, lineOf, mappingAt };

const DIGITS = new Uint8Array(128);
[...'ABCDEFGHIJKLMNOPQRSTUVWXYZabcdefghijklmnopqrstuvwxyz0123456789+/'].forEach((digit, value) => {
  DIGITS[digit.charCodeAt(0)] = value;
});
const COMMA = 44;
const SEMICOLON = 59;
// A source with mappings past this line is sorted without a list of its lines.
const MOST_LINES = 4000000;

// How many segments and lines a mappings text has.
function sizes(bytes) {
  let segments = 0;
  let lines = 1;
  let before = COMMA;
  for (let i = 0; i < bytes.length; i += 1) {
    const byte = bytes[i];
    if (byte === SEMICOLON) lines += 1;
    else if (byte !== COMMA && (before === COMMA || before === SEMICOLON)) segments += 1;
    before = byte;
  }
  return { segments, lines };
}

// The mappings of a text that smap wrote: it is accepted, so nothing is checked here. All numbers count from 0. Those of
// generated line L are from `first[L]` up to `first[L + 1]`; a mapping without an origin has source -1, without a name name -1.
function decodeMappings(text) {
  const bytes = new TextEncoder().encode(text);
  const { length } = bytes;
  const { segments, lines } = sizes(bytes);
  const first = new Int32Array(lines + 1);
  const column = new Int32Array(segments);
  const source = new Int32Array(segments).fill(-1);
  const originalLine = new Int32Array(segments);
  const originalColumn = new Int32Array(segments);
  const name = new Int32Array(segments).fill(-1);
  // The running values.
  let [atColumn, atSource, atLine, atOriginal, atName] = [0, 0, 0, 0, 0];
  let count = 0;
  let line = 0;
  let i = 0;
  while (i < length) {
    const byte = bytes[i];
    if (byte === SEMICOLON) {
      line += 1;
      first[line] = count;
      atColumn = 0;
      i += 1;
    } else if (byte === COMMA) {
      i += 1;
    } else {
      let fields = 0;
      do {
        let digit = DIGITS[bytes[i]];
        let value = digit & 31;
        i += 1;
        for (let shift = 5; digit & 32; shift += 5) {
          digit = DIGITS[bytes[i]];
          value |= (digit & 31) << shift;
          i += 1;
        }
        const move = value & 1 ? -(value >>> 1) : value >>> 1;
        if (fields === 0) column[count] = atColumn += move;
        else if (fields === 1) source[count] = atSource += move;
        else if (fields === 2) originalLine[count] = atLine += move;
        else if (fields === 3) originalColumn[count] = atOriginal += move;
        else name[count] = atName += move;
        fields += 1;
      } while (i < length && bytes[i] !== COMMA && bytes[i] !== SEMICOLON);
      count += 1;
    }
  }
  first[lines] = count;
  return { count, lines, first, column, source, originalLine, originalColumn, name };
}

// The mapping that answers for a place of the generated text, the last one at or before it on its line; -1 where none does.
function mappingAt(map, line, column) {
  if (line < 0 || line >= map.lines) return -1;
  const after = firstWhere(map.first[line], map.first[line + 1], (i) => map.column[i] > column);
  return after > map.first[line] ? after - 1 : -1;
}

// The generated line of a mapping.
function lineOf(map, index) {
  return firstWhere(0, map.lines, (line) => map.first[line + 1] > index);
}

// The mappings of a source by their places in it, and in their own order where these are equal.
function byOrigin(map, source) {
  const { originalLine, originalColumn } = map;
  let count = 0;
  let top = 0;
  for (let i = 0; i < map.count; i += 1) {
    if (map.source[i] === source) {
      count += 1;
      if (originalLine[i] > top) top = originalLine[i];
    }
  }
  const order = new Int32Array(count);
  if (top > MOST_LINES) {
    for (let i = 0, at = 0; i < map.count; i += 1) if (map.source[i] === source) order[at++] = i;
    return order.sort((a, b) => originalLine[a] - originalLine[b] || originalColumn[a] - originalColumn[b] || a - b);
  }
  // By lines first, each of which has few, and then by columns.
  const ends = new Int32Array(top + 2);
  for (let i = 0; i < map.count; i += 1) if (map.source[i] === source) ends[originalLine[i] + 1] += 1;
  for (let line = 0; line <= top; line += 1) ends[line + 1] += ends[line];
  const next = ends.slice();
  for (let i = 0; i < map.count; i += 1) if (map.source[i] === source) order[next[originalLine[i]]++] = i;
  for (let line = 0; line <= top; line += 1) sortByColumn(order, ends[line], ends[line + 1], originalColumn);
  return order;
}

// Sorts a part of an order by columns, and leaves those of equal ones as they are.
function sortByColumn(order, from, to, columns) {
  if (to - from > 64) {
    order.subarray(from, to).sort((a, b) => columns[a] - columns[b] || a - b);
    return;
  }
  for (let i = from + 1; i < to; i += 1) {
    const index = order[i];
    let j = i;
    for (; j > from && columns[order[j - 1]] > columns[index]; j -= 1) order[j] = order[j - 1];
    order[j] = index;
  }
}
