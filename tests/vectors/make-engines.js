#!/usr/bin/env node
// Makes the rows of lines that five engines printed, those of engines/lines.txt. README.md beside this file says
// what they are.
//
//   node make-engines.js       writes its rows of smap_rows and prints the counts
//
// Nothing here is made from smap's own code or output.
'use strict';

const fs = require('fs');
const path = require('path');
const { putRows, row } = require('./rows.js');

function insist(holds, what) {
  if (!holds) throw new Error(what);
}

// ---------------------------------------------------------------------------------------------
// Frames, each form of docs/FORMAT.md as one regular expression.
// ---------------------------------------------------------------------------------------------

const PLACE = '(?<url>[^\\r]+):(?<line>[1-9]\\d*):(?<column>[1-9]\\d*)';
const FORMS = [
  // No ` (` begins within the function, which has a byte.
  new RegExp(`^(?<head>[ \\t]*at (?:(?! \\()[^\\r])+ \\()${PLACE}(?<tail>\\)\\r?)$`),
  new RegExp(`^(?<head>[ \\t]*at (?:async )?)(?!async )${PLACE}(?<tail>\\r?)$`),
  new RegExp(`^(?![ \\t]*at )(?<head>[^@\\r]*@)${PLACE}(?<tail>\\r?)$`),
];

function frameOf(line) {
  insist(Buffer.byteLength(line) <= 65536, 'a long line');
  const groups = FORMS.map((form) => form.exec(line)?.groups).filter((found) => found && Math.max(found.line, found.column) <= 2147483648);
  insist(groups.length < 2, `in two ways a frame: ${line}`);
  return groups[0] ?? null;
}

function main() {
  const counts = {};
  const text = fs.readFileSync(path.join(__dirname, 'engines', 'lines.txt'), 'utf8');
  const rows = text.trimEnd().split('\n').map((listed) => {
    const [, engine, line] = /^([^|]+)\|(.*)$/.exec(listed);
    const plain = line.replace(/␍/g, '\r').replace(/␉/g, '\t');
    const frame = frameOf(plain);
    counts[engine] ??= [0, 0];
    counts[engine][0] += 1;
    counts[engine][1] += frame ? 1 : 0;
    if (!frame) return row(['frame', plain], ['none']);
    const { head, url, line: at, column, tail } = frame;
    insist(`${head}${url}:${at}:${column}${tail}` === plain, `not a frame: ${plain}`);
    return row(['frame', plain], [head, url, at, column, tail]);
  });
  putRows('Lines that engines printed', __filename, rows);
  for (const [engine, [lines, frames]] of Object.entries(counts)) console.log(`${engine}: ${lines} lines, ${frames} frames`);
  console.log(`${rows.length} rows`);
}

module.exports = { frameOf };
if (require.main === module) main();
