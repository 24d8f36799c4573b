'use strict';
// Prints the table of docs/LIBRARY.md that says what @jridgewell/trace-mapping and the library in node answer otherwise, of what both
// answer: node differences.js. A row on which they agree is an error.
const assert = require('node:assert');
const smap = require('smap');
const trace = require('@jridgewell/trace-mapping');
const { version } = require('@jridgewell/trace-mapping/package.json');

const map = (mappings, more) => ({ version: 3, sources: ['a.js'], names: [], mappings, ...more });
const index = (...sections) => ({ version: 3, sections: sections.map(([column, given]) => ({ offset: { line: 0, column }, map: given })) });
const decoded = (library, given) => library.decodedMappings(new library.AnyMap(given));
const name = (source, mapUrl, sourceRoot) => (library) => new library.TraceMap(map('', { sources: [source], sourceRoot }), mapUrl).resolvedSources[0];
const reads = (given) => (library) => void decoded(library, given) || 'read';
const columns = (given) => (library) => decoded(library, given)[0].map(([column]) => column).join(', ');
const line = (library, bias) => library.originalPositionFor(new library.TraceMap(map('AAAA,AACA')), { line: 1, column: 0, bias }).line;

const nulls = (library) => {
  const { file, sourcesContent } = new library.TraceMap(map('', { file: null, sourcesContent: null }));
  assert.strictEqual(file, sourcesContent);
  return file;
};

// What is given, what is asked of a library, and whether that is a text of a map.
const rows = [
  ['a name that is not in the list', reads(map('AAAAC'))],
  ['columns 1, 0 in a line', columns(map('CAAA,DAAC'))],
  ['decoded mappings in a text', reads(JSON.stringify(map([[[3, 0, 0, 0]]])))],
  ['lines 1, 2 at one position, and with `LEAST_UPPER_BOUND`', (library) => [line(library), line(library, -1)].join(', ')],
  ['the source `x/../a.ts` without a `mapUrl`', name('x/../a.ts'), true],
  ['`/e.ts` below the root `src`', name('/e.ts', undefined, 'src'), true],
  ['`ä b.ts` at `https://h/x.map`', name('ä b.ts', 'https://h/x.map'), true],
  ['`node:fs` at `dist/x.map`', name('node:fs', 'dist/x.map'), true],
  ['`C:\\w\\a.ts` at `dist/x.map`', name('C:\\w\\a.ts', 'dist/x.map'), true],
  ['`..\\a.ts` at `https://h/js/x.map`', name('..\\a.ts', 'https://h/js/x.map'), true],
  ['null at `dist/x.map`', name(null, 'dist/x.map'), true],
  ['`new TraceMap` of an index map', (library) => void new library.TraceMap(index([0, map('AAAA')])).sources[0] || 'read'],
  ['sections in a section', reads(index([0, index([0, map('AAAA')])]))],
  ['columns 0, 2 of a section, 1 of the next', columns(index([0, map('AAAA,EAAA')], [1, map('AAAA')]))],
  ['columns 0, 1 of a section, 1 of the next', columns(index([0, map('AAAA,CAAA')], [1, map('AAAA')]))],
  ['no `names`', (library) => new library.TraceMap(map('', { names: undefined })).names],
  ['a missing content', (library) => library.sourceContentFor(new library.TraceMap(map('', { sourcesContent: [] })), 'a.js')],
  ['`encodedMappings` of `A,;`', (library) => library.encodedMappings(new library.TraceMap(map('A,;'))), true],
  ['`file` and `sourcesContent` null', nulls],
];

// What a library answers, as the table has it.
function told(library, ask, isText) {
  let answer;
  try {
    answer = ask(library);
  } catch (error) {
    return error instanceof smap.Refused ? `refused: ${error.cause || error.code}` : `a ${error.name}`;
  }
  if (typeof answer === 'string') return isText ? `\`${answer}\`` : answer;
  return answer === undefined ? 'undefined' : JSON.stringify(answer);
}

console.log(`||trace-mapping ${version}|smap|\n|---|---|---|`);
for (const [what, ask, isText] of rows) {
  const [theirs, ours] = [trace, smap].map((library) => told(library, ask, isText));
  assert.notStrictEqual(ours, theirs, what);
  console.log(`|${what}|${theirs}|${ours}|`);
}
