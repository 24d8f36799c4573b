#!/usr/bin/env node
// Makes the rows of encoding and of `smap show`. README.md beside this file says what they are.
//
//   node make-encodings.js     writes its rows of smap_rows and prints the counts
//
// The strings and the index maps are those of the rows that make.js and make-index-maps.js write. Nothing here is made from smap's own code or output.
'use strict';

const codec = require('@jridgewell/sourcemap-codec');
const { linesOf } = require('./lookup.js');
const { file, putRows, readFile, rowsIn, row, run } = require('./rows.js');

function insist(holds, what) {
  if (!holds) throw new Error(what);
}

// The string for mappings line by line. The codec also writes the `;` of empty lines at the end, which take it to
// no mapping.
function encoded(lines) {
  const used = lines.slice();
  while (used.length > 0 && used[used.length - 1].length === 0) used.pop();
  const text = codec.encode(used);
  insist(JSON.stringify(codec.decode(text)) === JSON.stringify(used.length > 0 ? used : [[]]), `reads otherwise: ${text}`);
  return text;
}

// Mappings as the rows have them, line by line.
function linesOfList(list) {
  const lines = [];
  for (const word of list === '' ? [] : list.split(' ')) {
    const [line, ...segment] = word.split(',').map(Number);
    while (lines.length <= line) lines.push([]);
    lines[line].push(segment);
  }
  return lines;
}

// ---------------------------------------------------------------------------------------------
// Strings.
// ---------------------------------------------------------------------------------------------

const counts = { same: 0, equalColumns: 0, oneField: 0, emptyPieces: 0 };
const encodings = rowsIn('Mappings of texts and indexes', 'make.js')
  .filter(([asked]) => asked[0] === 'decode')
  .map(([[, text], [, , list]]) => {
  insist(!/\\/.test(text + list), 'a row with an escape');
  const lines = linesOf(text);
  const encoding = encoded(lines);
  insist(encoding === encoded(linesOfList(list)), `the row has other mappings: ${text}`);
  counts.same += encoding === text;
  counts.equalColumns += lines.some((line) => line.some((segment, i) => i > 0 && segment[0] === line[i - 1][0]));
  counts.oneField += lines.some((line) => line.some((segment) => segment.length === 1));
  counts.emptyPieces += text.split(';').some((line) => line !== '' && line.split(',').includes(''));
  return row(['encode', list], [encoding]);
});

// ---------------------------------------------------------------------------------------------
// Index maps.
// ---------------------------------------------------------------------------------------------

function contentsOf({ sources, sourcesContent }) {
  return sources.map((_, i) => (sourcesContent ?? [])[i] ?? null);
}

// The regular map for a row. Keys without a value are left out.
function writtenMap([[, name], [, , list, , sources, , names]]) {
  const text = readFile(name);
  const { file: inFile, sections } = JSON.parse(text);
  const entries = sources === '' ? [] : sources.split(',');
  const contents = sections.flatMap(({ map }) => contentsOf(map));
  insist(contents.length === entries.length, `the row has other sources: ${text}`);
  const ignored = entries.flatMap((entry, i) => (entry.endsWith('*') ? [i] : []));
  const written = JSON.stringify({
    file: inFile,
    ignoreList: ignored.length > 0 ? ignored : undefined,
    mappings: encoded(linesOfList(list)),
    names: names === '' ? [] : names.split(','),
    sources: entries.map((entry) => entry.replace(/\*$/, '')).map((name) => (name === 'none' ? null : name)),
    sourcesContent: contents.some((content) => content !== null) ? contents : undefined,
    version: 3,
  });
  return { name: name.slice(1), written };
}

const maps = rowsIn('Index maps', 'make-index-maps.js')
  .filter(([asked]) => asked[0] === 'read')
  .map(writtenMap);

putRows('Lists that are encoded', __filename, encodings);
putRows(
  'Index maps that are written',
  __filename,
  maps.flatMap(({ name, written }) => [
    run(['show', name], '', [0, `${written}\n`, '']),
    row(['write', file(name), '%K'], [written]),
    // It is written alike when it is read again.
    run(['show', 'm.map'], '', [0, `${written}\n`, ''], [['m.map', written]]),
  ]),
);
console.log(
  `strings ${encodings.length}: with equal columns ${counts.equalColumns}, with a segment of one field ` +
    `${counts.oneField}, with an empty piece ${counts.emptyPieces}; ${counts.same} stay as they are`,
);
const having = (key) => maps.filter(({ written }) => key in JSON.parse(written)).length;
console.log(`index maps ${maps.length}: with ${['file', 'ignoreList', 'sourcesContent'].map((key) => `${key} ${having(key)}`).join(', ')}`);
