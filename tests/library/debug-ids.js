'use strict';
// Debug ids of maps in node: read, kept where that is asked, and looked up by. The ids are written out here.
const assert = require('node:assert');
const smap = require('smap');

let checks = 0;
const same = (got, wanted) => {
  checks += 1;
  assert.deepStrictEqual(got, wanted);
};

const ID = '85314830-023f-4cf1-a267-535f4e37bb17';
const OTHER = '00000000-0000-4000-8000-000000000000';
const rest = { version: 3, sources: ['a.ts'], names: [], mappings: 'AAAA,IAEC' };
const index = (members, of) => ({ version: 3, ...members, sections: [{ offset: { line: 0, column: 0 }, map: { ...rest, ...of } }] });

// What is no text counts as absent; an index map's own decides, and none of its sections; a key may be escaped.
for (const [map, wanted] of [
  [{ ...rest, debugId: ID }, ID],
  [{ ...rest, debug_id: ID }, ID],
  [{ debug_id: OTHER, ...rest, debugId: ID }, ID],
  [{ ...rest, debugId: null, debug_id: ID }, ID],
  [{ ...rest, debugId: 7, debug_id: ID }, ID],
  [{ ...rest, debugId: { a: [ID] }, debug_id: [ID] }, undefined],
  [{ ...rest, debugid: ID, debugID: ID }, undefined],
  [{ ...rest, debugId: 'é"\\\n😀' }, 'é"\\\n😀'],
  [{ ...rest, debugId: '' }, ''],
  [rest, undefined],
  [index({ debugId: ID }, {}), ID],
  [index({ debug_id: ID }, { debugId: OTHER }), ID],
  [index({}, { debugId: ID }), undefined],
]) {
  const text = JSON.stringify(map);
  for (const given of [map, text, Buffer.from(text), text.replace('"debug', '"\\u0064ebug'), `)]}'\n${text}`]) same(new smap.TraceMap(given).debugId, wanted);
}
same(new smap.TraceMap('{"debugId":"a","version":3,"sources":[],"mappings":"","debugId":"b"}').debugId, 'b');

// It is written where that is asked, and not else.
const map = new smap.TraceMap({ ...rest, debug_id: `"${ID}` });
const plain = new smap.TraceMap(rest);
const without = '{"mappings":"AAAA,IAEC","names":[],"sources":["a.ts"],"version":3}';
const withId = (text, id) => text.replace(/}$/, `,"debugId":${JSON.stringify(id)}}`);
same(map.write().toString(), without);
same(map.write({ debugId: false }).toString(), without);
same(map.write({ debugId: true }).toString(), withId(without, `"${ID}`));
same(plain.write({ debugId: true }).toString(), without);
same(map.toJSON().debugId, undefined);
same('debugId' in map.toJSON(), false);
same(map.toJSON({ debugId: true }), { ...map.toJSON(), debugId: `"${ID}` });
same(JSON.parse(JSON.stringify({ debugId: map })).debugId.debugId, undefined);
same(new smap.TraceMap(map.write({ debugId: true })).debugId, `"${ID}`);
for (const options of [{ debugId: 1 }, { debugid: true }, true, null]) {
  for (const call of [() => map.write(options), () => map.toJSON(options), () => smap.compose(map, 0, plain, options)]) assert.throws(call, TypeError), (checks += 1);
}

// A composed map has that of the outer one.
const inner = new smap.TraceMap({ ...rest, sources: ['b.ts'], debugId: OTHER });
const composed = '{"mappings":"ACAA","names":[],"sources":["a.ts","b.ts"],"version":3}';
const outer = new smap.TraceMap({ ...rest, mappings: 'AAAA', debugId: ID });
same(smap.compose(outer, 0, inner).toString(), composed);
same(smap.compose(outer, 0, inner, { debugId: true }).toString(), withId(composed, ID));
same(smap.compose(plain, 0, inner, { debugId: true }).includes('debugId'), false);
same(new smap.TraceMap(smap.compose(outer, 0, outer, { debugId: true })).debugId, ID);
same(smap.composeAll(outer, { 'a.ts': inner }).toString(), composed);
same(smap.composeAll(outer, { 'a.ts': inner }, { debugId: true }).toString(), withId(composed, ID));

// What maps keep has its id; and one that was added under its id answers for it.
const large = JSON.stringify({ ...rest, sourcesContent: ['x'.repeat(2 << 20)], debugId: ID });
const maps = new smap.Maps({ maxBytes: 1 << 26, loadAsync: async (url) => (url.includes('large') ? large : JSON.stringify({ ...rest, debugId: OTHER })) });
maps.add(`debugid:${ID}`, new smap.TraceMap({ ...rest, debugId: ID }));
const { source, line, column } = maps.lookUp(`debugid:${ID}`, 1, 5);
same([source, line, column], ['a.ts', 3, 1]);
same(maps.get(`debugid:${ID}`).debugId, ID);
maps.add('https://e.test/b.js', JSON.stringify({ ...rest, debugId: OTHER }));
same(maps.get('https://e.test/b.js').debugId, OTHER);
(async () => {
  await maps.load(['https://e.test/large.js', 'https://e.test/c.js']);
  same([maps.get('https://e.test/large.js').debugId, maps.get('https://e.test/c.js').debugId], [ID, OTHER]);
  same(smap.rewrite(maps, `    at f (debugid:${ID}:1:5)\n`).toString(), '    at f (a.ts:3:2)\n');
  console.log(`ids ${checks}`);
})();
