// The checker: whether a mappings text is accepted, and if not, its first fault. The faults are those of
// docs/FORMAT.md, each written as docs/CLI.md defines it. It shares nothing with smap.
'use strict';

const LIMIT = 2147483647n;
const DIGITS = 'ABCDEFGHIJKLMNOPQRSTUVWXYZabcdefghijklmnopqrstuvwxyz0123456789+/';

const KINDS = {
  1: 'F1 BadDigit',
  2: 'F2 Unended',
  3: 'F3 TooLong',
  4: 'F4 TooLarge',
  5: 'F5 NegativeZero',
  6: 'F6 FieldCount',
  7: 'F7 Negative',
  8: 'F8 PastLimit',
  9: 'F9 ColumnFalls',
  10: 'F10 SourceIndex',
  11: 'F11 NameIndex',
};

// Each nonempty piece with its place: the line from 0, the byte where it begins, and whether an
// earlier one stands on its line.
function segmentsOf(bytes) {
  const found = [];
  let line = 0;
  let begin = 0;
  let follows = false;
  for (let i = 0; i <= bytes.length; i++) {
    const byte = i < bytes.length ? String.fromCharCode(bytes[i]) : ';';
    if (byte !== ',' && byte !== ';') continue;
    if (i > begin) {
      found.push({ line, begin, follows, piece: bytes.subarray(begin, i) });
      follows = true;
    }
    begin = i + 1;
    if (byte === ';') {
      line += 1;
      follows = false;
    }
  }
  return found;
}

function digitOf(byte) {
  return byte === 0 ? -1 : DIGITS.indexOf(String.fromCharCode(byte));
}

// The digits of a segment, cut after each one that no other follows.
function numbersOf(digits) {
  const numbers = [[]];
  for (const digit of digits) {
    numbers[numbers.length - 1].push(digit);
    if (digit < 32) numbers.push([]);
  }
  if (numbers[numbers.length - 1].length === 0) numbers.pop();
  return numbers;
}

// What the digits of one number spell, with the sign still in the lowest bit.
function unsignedOf(number) {
  return number.reduce((sum, digit, i) => sum + BigInt(digit % 32) * 32n ** BigInt(i), 0n);
}

function valueOf(number) {
  const unsigned = unsignedOf(number);
  return unsigned % 2n === 0n ? unsigned / 2n : -(unsigned / 2n);
}

// The kind of fault of one segment: of those that hold of the whole of it, the least. `before` has
// the five running values, and `after` takes those that the segment leaves. Source and name indices
// are below `sources` and `names`.
function kindOf(segment, before, after, sources, names) {
  const digits = Array.from(segment.piece, digitOf);
  if (digits.some((digit) => digit < 0)) return 1;
  if (digits[digits.length - 1] >= 32) return 2;
  const numbers = numbersOf(digits);
  if (numbers.some((number) => number.length > 7)) return 3;
  if (numbers.some((number) => unsignedOf(number) / 2n > LIMIT)) return 4;
  if (numbers.some((number) => unsignedOf(number) === 1n)) return 5;
  if (![1, 4, 5].includes(numbers.length)) return 6;
  const values = numbers.map(valueOf);
  for (let i = 0; i < 5; i++) after[i] = before[i] + (i < values.length ? values[i] : 0n);
  if (after.some((value) => value < 0n)) return 7;
  if (after.some((value) => value > LIMIT)) return 8;
  if (values[0] < 0n && segment.follows) return 9;
  if (values.length > 1 && after[1] >= sources) return 10;
  if (values.length > 4 && after[4] >= names) return 11;
  return 0;
}

// The fault of a text, or its mappings line by line, as plain numbers. Where the numbers of sources and
// names are not given, each index up to the limit will do, as in the command `raw`.
function checked(text, sources = Infinity, names = Infinity) {
  const bytes = Buffer.from(text, 'utf8');
  const lines = [];
  let running = [0n, 0n, 0n, 0n, 0n];
  let lineOfRunning = 0;
  for (const segment of segmentsOf(bytes)) {
    if (segment.line !== lineOfRunning) {
      running[0] = 0n;
      lineOfRunning = segment.line;
    }
    const after = [0n, 0n, 0n, 0n, 0n];
    const kind = kindOf(segment, running, after, sources, names);
    if (kind !== 0) return { kind, line: segment.line, byte: segment.begin };
    running = after;
    const fields = numbersOf(Array.from(segment.piece, digitOf)).length;
    while (lines.length <= segment.line) lines.push([]);
    lines[segment.line].push(after.slice(0, fields).map(Number));
  }
  return { kind: 0, lines };
}

function refusalOf(text) {
  const found = checked(text);
  if (found.kind === 0) return null;
  return `refused: ${KINDS[found.kind]} line ${found.line + 1} byte ${found.byte}`;
}

module.exports = { DIGITS, KINDS, digitOf, numbersOf, unsignedOf, checked, refusalOf };
