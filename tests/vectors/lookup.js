// What `smap lookup` is to print, as other people's decoder and docs/FORMAT.md say: nothing here is
// smap's.
'use strict';

const codec = require('@jridgewell/sourcemap-codec');

// The mappings line by line. The decoder takes an empty piece for a number, so those go first.
function linesOf(text) {
  const full = (line) => line.split(',').filter((piece) => piece !== '').join(',');
  return codec.decode(text.split(';').map(full).join(';'));
}

// The last mapping on the line whose column is not after the asked one. Both count from 1.
function answerOf(lines, line, column) {
  let answer = null;
  for (const segment of lines[line - 1] || []) {
    if (segment[0] > column - 1) break;
    answer = segment;
  }
  return answer;
}

// The first mapping on the line whose column is not before the asked one. Both count from 1.
function answerFrom(lines, line, column) {
  return (lines[line - 1] || []).find((segment) => segment[0] >= column - 1) ?? null;
}

// What a mapping answers: its column and its origin, as far as it has one; or `none`.
function answerText(mapping) {
  return mapping === null ? 'none' : mapping.slice(1).join(',');
}

// What the last mapping of a list answers that stands on the line and whose column is not after the asked one, all from 0.
function lastBefore(list, line, column) {
  return answerText(list.findLast(([on, at]) => on === line && at <= column) ?? null);
}

// What the first mapping of a list answers that stands on the line and whose column is not before the asked one, all from 0.
function firstFrom(list, line, column) {
  return answerText(list.find(([on, at]) => on === line && at >= column) ?? null);
}

// What answers on a line at each column up to one: the columns from which on it is another, each with that answer.
function changesOn(list, line, most, answer) {
  const places = list.filter(([on]) => on === line).flatMap(([, column]) => [column, column + 1]);
  const columns = [...new Set([0, ...places])].filter((column) => column <= most).sort((one, other) => one - other);
  const answers = columns.map((column) => [column, answer(list, line, column)]);
  const changes = answers.filter(([, text], i) => i === 0 || text !== answers[i - 1][1]);
  return changes.map(([column, text]) => `${column}: ${text}; `).join('');
}

// The last line and the last column that are asked of a list: one more than it has; and what answers on each line, in both
// directions.
function answersOfAll(list) {
  const [lines, columns] = [0, 1].map((i) => Math.max(0, ...list.map((mapping) => mapping[i])) + 1);
  const answers = Array.from({ length: lines + 1 }, (_, line) =>
    [lastBefore, firstFrom].map((answer) => changesOn(list, line, columns, answer)),
  );
  return { asked: [lines, columns], answers: answers.flat() };
}

// A text as it is printed: each control character as a question mark.
function shownText(text) {
  return text.replace(/[\x00-\x1f\x7f]/g, '?');
}

function isIgnored(map, source) {
  return (map.ignoreList ?? map.x_google_ignoreList ?? []).includes(source);
}

// The one line for a mapping of this map, or for none.
function printedLine(map, segment) {
  if (segment === null) return 'none';
  if (segment.length === 1) return 'unmapped';
  const [, source, line, column, name] = segment;
  const text = map.sources[source];
  const place = `${text === null ? `[${source}]` : shownText(text)}:${line + 1}:${column + 1}`;
  const named = segment.length === 5 ? ` name ${shownText(map.names[name])}` : '';
  return `${place}${named}${isIgnored(map, source) ? ' ignored' : ''}`;
}

// This many items of a list at most, spread evenly over it, with the first and the last.
function spread(list, most) {
  if (list.length <= most) return list;
  if (most === 1) return [list[0]];
  return Array.from({ length: most }, (_, i) => list[Math.round((i * (list.length - 1)) / (most - 1))]);
}

module.exports = { linesOf, answerFrom, answerOf, answersOfAll, firstFrom, isIgnored, lastBefore, printedLine, shownText, spread };
