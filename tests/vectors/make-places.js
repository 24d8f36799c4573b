#!/usr/bin/env node
// Makes the rows of lines, UTF-16 places and excerpts. README.md beside this file says what they are.
//
//   node make-places.js       writes its rows of smap_rows and prints the counts
//
// The answers are those of node's own strings: `split`, `length`, `codePointAt` and `Array.from`; nothing here is made from
// smap's own code or output.
'use strict';

const { linesOfText, excerptOf } = require('./excerpt.js');
const { putRows, row } = require('./rows.js');

function insist(holds, what) {
  if (!holds) throw new Error(what);
}

// Where there is none, a second field says that this is no text.
const NONE = ['none', ''];

// ---------------------------------------------------------------------------------------------
// Lines and places.
// ---------------------------------------------------------------------------------------------

const FACE = '\u{1F600}';

// The contents, and the columns that are asked on each of their lines and on the line behind the last.
const CONTENTS = [
  ['', [0, 1]],
  ['a\n', [0, 1]],
  ['a\r\nb', [0, 1, 2]],
  ['a\r\rb', [0, 1]],
  ['a\u2028b', [0, 2]],
  ['a\u2029b', [1]],
  ['\n', [0]],
  ['\r', [0]],
  ['\r\n', [0]],
  ['\u2028', [0]],
  ['\u2029', [0]],
  ['\n\r', [0]],
  ['\r\r\n\n', [0]],
  ['a\n\nb\r\n\r\nc\u2028\u2029d', [0, 2]],
  ['a\u2027b\u202Ac\u00E2\u0080\u0085\u000B\u000Cd', [4, 9, 10]],
  [`let ${FACE}x`, [0, 3, 4, 5, 6, 7, 8, 2147483647]],
  [`${FACE}${FACE}\n${FACE}`, [0, 1, 2, 3, 4, 5]],
  ['\u007F\u0080\u07FF\u0800\uFFFF\u{10000}\u{10FFFF}', [0, 1, 2, 3, 4, 5, 6, 7, 8, 9, 10]],
  ['e\u0301\u{1F468}\u200D\u{1F469}', [1, 2, 3, 4, 5, 6, 7, 8]],
];

// The place of a column in a line, as smap's type shows it.
function placeOf(text, column) {
  if (column > text.length) return `Past(${text.length})`;
  const inside = column > 0 && text.codePointAt(column - 1) > 0xffff;
  return inside
    ? `Inside(${Buffer.byteLength(text.slice(0, column - 1))})`
    : `At(${Buffer.byteLength(text.slice(0, column))})`;
}

const places = CONTENTS.flatMap(([content, columns]) => {
  const lines = linesOfText(content);
  const rows = lines.flatMap((text, line) =>
    columns.map((column) => ({ content, line, column, text })),
  );
  return [...rows, { content, line: lines.length, column: columns[0], text: null }];
});

// ---------------------------------------------------------------------------------------------
// Excerpts, of a text that is repeated.
// ---------------------------------------------------------------------------------------------

const DIGITS = '0123456789';

// A text, how many times it stands in the content, the line, and the columns that are asked.
const EXCERPTS = [
  ['a\tb', 1, 0, [0, 1, 2, 3, 4]],
  ['x', 200, 0, [100]],
  [`let ${FACE}x`, 1, 0, [4, 5, 6, 7, 8]],
  ['', 1, 0, [0, 1]],
  ['a\r\nb', 1, 1, [0, 1, 2]],
  ['a\n', 1, 1, [0, 1]],
  ['a\n', 1, 2, [0]],
  ['\0\u001f\t\u007f~\u0080', 1, 0, [0, 5, 6]],
  [DIGITS, 1000, 0, [0, 59, 60, 61, 9999, 10000, 10001]],
  [DIGITS, 12, 0, [60, 119, 120]],
  [`${DIGITS}x`, 11, 0, [60, 61, 120, 121]],
  // A pair at either edge of the 120.
  [FACE, 200, 0, [0, 1, 118, 119, 120, 121, 122, 399, 400, 401]],
  [`a${FACE}`, 61, 0, [0, 91, 92, 181, 182, 183]],
  // A combining character at either edge.
  ['e\u0301', 100, 0, [0, 60, 61, 119, 120, 200]],
  ['e\u0301', 60, 0, [0, 119]],
  [`${DIGITS}\u2028`, 3, 2, [3]],
];

const excerpts = EXCERPTS.flatMap(([text, times, line, columns]) =>
  columns.map((column) => {
    const found = excerptOf(text.repeat(times), line, column);
    const shown = found === null ? NONE : [`${found.shown}\n${' '.repeat(found.before)}^`];
    return row(['excerpt', text.repeat(times), line, column], shown);
  }),
);

putRows(
  'Lines and places in them',
  __filename,
  places.flatMap(({ content, line, column, text }) => {
    if (text === null) return [row(['line_at', content, line], NONE)];
    return [
      row(['line_at', content, line], [text]),
      row(['units', text], [text.length]),
      row(['unit_place', text, column], [placeOf(text, column)]),
    ];
  }),
);
putRows('Excerpts', __filename, excerpts);
console.log(`places ${places.length} excerpts ${excerpts.length}`);
