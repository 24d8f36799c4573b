'use strict';
// Names of functions in node: a map is given its generated file. What is expected is worked out by hand.
const assert = require('node:assert');
const smap = require('smap');

// Line 1: `fe` was written as `main`, and `b` as it is; `c` is a property. Line 2: `fe` again, of which the map says nothing.
const TEXT = 'function fe(){throw x}function b(){}o.c=()=>{}\nfe=()=>{}';
const MAP = '{"version":3,"sources":["a.ts"],"names":["main"],"mappings":"SAAAA,sBAAA"}';

let checks = 0;
const same = (got, wanted) => {
  checks += 1;
  assert.deepStrictEqual(got, wanted);
};
const refuses = (name, call, message, members = {}) => {
  checks += 1;
  assert.throws(call, { name, message, ...members });
};

const asked = (map, ...places) => places.map((place) => map.functionName(...place));
const named = (map) => asked(map, [1, 14, 'fe'], [1, 14, 'async fe'], [1, 9, 'new fe'], [1, 35, 'b']);
const unnamed = (map) =>
  asked(map, [1, 8, 'fe'], [1, 30, 'fe'], [2, 8, 'fe'], [1, 45, 'c'], [1, 14, 'Object.fe'], [1, 14, '<anonymous>'], [1, 14, 'f'], [1, 14, ''],
    [1, 14, 'fe '], [1, 14, '\udc00'], [2 ** 40, Infinity, 'fe'], [1, 14, 'async async fe']);

for (const generated of [TEXT, Buffer.from(TEXT), new Uint8Array(Buffer.from(TEXT)), `\ufeff${TEXT}`]) {
  const map = new smap.TraceMap(MAP);
  same(map.withGenerated(generated) === map, true);
  same(named(map), ['main', 'main', 'main', 'b']);
  same(unnamed(map), Array(12).fill(null));
  map.close();
  refuses('Error', () => map.functionName(1, 14, 'fe'), /closed/);
  refuses('Error', () => map.withGenerated(TEXT), /closed/);
}

// Another file takes the place of the first, and one that is refused does not.
const map = new smap.TraceMap(MAP);
refuses('Error', () => map.functionName(1, 14, 'fe'), /no generated file/);
refuses('Refused', () => map.withGenerated('function fe'), /A4 Misfit/, { code: 'A4' });
refuses('Error', () => map.functionName(1, 14, 'fe'), /no generated file/);
map.withGenerated(TEXT);
for (const [generated, code] of [[Buffer.from([255]), 'NotUtf8'], [Buffer.alloc(67108865), 'M1'], [TEXT.slice(0, 30), 'A4']]) {
  refuses('Refused', () => map.withGenerated(generated), new RegExp(code), { code });
  same(named(map), ['main', 'main', 'main', 'b']);
}
map.withGenerated(TEXT.replace(/fe/g, 'gi'));
same(asked(map, [1, 14, 'fe'], [1, 14, 'gi']), [null, 'main']);

// A name that is none, as one that would not be one in JSON, is not handed out.
for (const [name, wanted] of [['","admin":true,"', null], ['', null], ['a b', null], ['é', 'é']]) {
  const other = new smap.TraceMap({ ...JSON.parse(MAP), names: [name] });
  same(other.withGenerated(TEXT).functionName(1, 14, 'fe'), wanted);
}

for (const place of [[1, 14, Buffer.from('fe')], [1, 14, null], [1, 14], ['1', 14, 'fe'], [1, 1.5, 'fe']]) {
  refuses('TypeError', () => map.functionName(...place), /`(name|line|column)` must be/);
}
for (const place of [[0, 14, 'fe'], [1, -1, 'fe']]) refuses('Error', () => map.functionName(...place), /must be greater/);
for (const generated of [null, 7, ['a'], undefined]) refuses('TypeError', () => map.withGenerated(generated), /`generated` must be/);

// Frames get the names of their functions, from a table, from maps and piece by piece: V8's, Firefox's, one of several names, one of which the
// map says nothing, and one of another map.
const TRACE = 'x\n    at async fe (/js/u.js:1:15)\nfe@/js/u.js?v:1:15\n    at Object.fe (/js/u.js:1:15)\n    at fe (/js/u.js:2:9)\n    at b (/js/u.js:1:36)\n';
const NAMED = 'x\n    at async main (a.ts:1:1)\nmain@a.ts:1:1\n    at Object.fe (a.ts:1:1)\n    at fe (/js/u.js:2:9)\n    at b (a.ts:1:1)\n';
const BARE = NAMED.replace(/main/g, 'fe');
// With `anywhere` a frame's place names its function, too: but one whose URL is that of a table only up to its query is not the frame's.
const CUT = NAMED.replace('main@', 'fe@');
const read = (generated) => {
  const map = new smap.TraceMap(MAP);
  return generated === undefined ? map : map.withGenerated(generated);
};
for (const [url, generated, wanted, placed] of [
  ['/js/u.js', TEXT, NAMED, CUT], ['*u.js', TEXT, NAMED, NAMED], ['/js/u.js', undefined, BARE, BARE], ['*u.js', undefined, BARE, BARE]]) {
  const table = new smap.Table({ [url]: read(generated) });
  same(String(smap.rewrite(table, TRACE)), wanted);
  same(String(smap.rewrite(table, TRACE, { anywhere: true })), placed);
  same(table.counts, { lines: 6, places: 5, mapped: 4 });
}
const maps = new smap.Maps({ load: (url) => (url === '/js/u.js' ? read(TEXT) : null), maxBytes: 1 << 20 });
same(String(smap.rewrite(maps, TRACE)), NAMED);
same(String(smap.rewrite(maps, TRACE, { anywhere: true })), NAMED);
same(String(smap.rewrite(maps, '["    at fe (/js/u.js:1:15)\\n"] fe (/js/u.js:1:15)\n', { anywhere: true })),
  '["    at main (a.ts:1:1)\\n"] fe (a.ts:1:1)\n');
same(named(maps.get('/js/u.js')), ['main', 'main', 'main', 'b']);
const whole = maps.nbytes;
same(smap.generatedPositionFor(maps.get('/js/u.js'), { source: 'a.ts', line: 1, column: 0 }).line, 1);
same(maps.nbytes > whole, true);
same(String(smap.rewrite(maps, TRACE)), NAMED);
maps.add('/js/u.js', MAP);
same(String(smap.rewrite(maps, TRACE)), BARE);
same(String(smap.rewrite(maps, TRACE, { anywhere: true })), BARE);
const bare = maps.nbytes;
maps.add('/js/u.js', MAP, { generated: TEXT });
same(maps.nbytes > bare, true);
same(String(smap.rewrite(maps, TRACE)), NAMED);
refuses('Refused', () => maps.add('/js/u.js', MAP, { generated: 'function fe' }), /A4 Misfit/, { code: 'A4' });
refuses('TypeError', () => maps.add('/js/u.js', MAP, { file: TEXT }), /no option here/);
same(String(smap.rewrite(maps, TRACE)), NAMED);
maps.maxBytes = 1 << 21;
same(String(smap.rewrite(maps, TRACE)), NAMED);
maps.close();

console.log(`names ${checks}`);
