// The lines of a text and the excerpt of a place in it, by node's own strings.
'use strict';

// The lines of a text, without their ends (ECMAScript, line terminator sequences).
function linesOfText(text) {
  return text.split(/\r\n|[\n\r\u2028\u2029]/);
}

function shownChar(char) {
  if (char === '\t') return ' ';
  return char < ' ' || char === '\u007f' ? '?' : char;
}

// What shows of a line for a place, from 0, and how many spaces stand before the caret; null where there is no such place.
function excerptOf(content, line, column) {
  const text = linesOfText(content)[line];
  if (text === undefined || column > text.length) return null;
  const inside = column > 0 && text.codePointAt(column - 1) > 0xffff;
  const number = Array.from(text.slice(0, inside ? column - 1 : column)).length;
  const first = Math.max(number - 60, 0);
  const shown = Array.from(text).slice(first, first + 120).map(shownChar).join('');
  return { shown, before: number - first };
}

module.exports = { linesOfText, excerptOf };
