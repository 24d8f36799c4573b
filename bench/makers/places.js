// Places in a line of a decoded map.
'use strict';

// Where several mappings have one column, readers differ in which of them answers: no such mapping is asked for. So whether
// a mapping has its column for itself.
function isAlone(line, i) {
  return (i === 0 || line[i - 1][0] < line[i][0]) && (i + 1 === line.length || line[i][0] < line[i + 1][0]);
}

// A random mapping, and a column in front of the next one, at which it answers; null where it hasn't its column for itself.
function randomPlace(line, below) {
  const i = below(line.length);
  if (!isAlone(line, i)) return null;
  const column = line[i][0];
  const next = i + 1 < line.length ? line[i + 1][0] : column + 8;
  return { segment: line[i], column: () => column + below(next - column) };
}

module.exports = { isAlone, randomPlace };
