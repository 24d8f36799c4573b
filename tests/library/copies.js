'use strict';
// Two copies of the library for node in one process: node copies.js. A TraceMap of one is no handle of the other, which says so, and reads
// it again where it is given as a map.
const assert = require('node:assert');
const fs = require('node:fs');
const os = require('node:os');
const path = require('node:path');
const smap = require('smap');

let checks = 0;
const same = (got, wanted) => {
  checks += 1;
  assert.deepStrictEqual(got, wanted);
};
const folder = fs.mkdtempSync(path.join(os.tmpdir(), 'copies-'));
try {
  const from = path.dirname(require.resolve('smap'));
  fs.cpSync(from, path.join(folder, 'smap'), { recursive: true, dereference: true });
  const other = require(path.join(folder, 'smap'));
  same(other.TraceMap === smap.TraceMap, false);
  const given = { version: 3, sources: ['../a.ts', 'b.ts'], sourceRoot: 'src', names: ['f'], mappings: [[[0, 0, 1, 2, 0], [4, 1, 0, 0]]] };
  const own = new smap.TraceMap(given, 'dist/x.js.map');
  const needle = { line: 1, column: 0 };
  for (const call of [() => other.originalPositionFor(own, needle), () => other.decodedMappings(own), () => other.compose(own, 0, own), () => other.generated(own, 0, 1)]) {
    checks += 1;
    assert.throws(call, { name: 'TypeError', message: /of another one: `new TraceMap\(map\)`/ });
  }
  const again = new other.TraceMap(own);
  same(again instanceof smap.TraceMap, false);
  same(other.originalPositionFor(again, needle), smap.originalPositionFor(own, needle));
  same([again.resolvedSources, again.names, other.decodedMappings(again)], [own.resolvedSources, own.names, smap.decodedMappings(own)]);
  // It was read: the first may go.
  own.close();
  same(other.originalPositionFor(again, needle).name, 'f');
  assert.throws(() => new other.TraceMap(own), /the map is closed/);
  // And what takes a map takes it.
  const third = new smap.TraceMap(given);
  const table = new other.Table({ 'https://e.test/a.js': third });
  same(table.lookUp('https://e.test/a.js', 1, 0).line, 2);
  same(smap.originalPositionFor(third, needle).line, 2);
  same(other.remapping(third, () => null).mappings, smap.remapping(third, () => null).mappings);
  assert.throws(() => smap.originalPositionFor({}, needle), { name: 'TypeError', message: 'a TraceMap is wanted' });
} finally {
  fs.rmSync(folder, { recursive: true });
}
console.log('copies', checks);
