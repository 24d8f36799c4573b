'use strict';
// What the library answers in node where it is called wrongly, and at the ends of what numbers hold: node mistakes.js MAP.
const assert = require('node:assert');
const fs = require('node:fs');
const path = require('node:path');
const util = require('node:util');
const v8 = require('node:v8');
const vm = require('node:vm');
const chances = require('../vectors/chance.js').chanceFrom(11);
const smap = require('smap');
// What nobody else is to call has no name by which it is found.
const within = (name) => require(path.join(path.dirname(require.resolve('smap')), name));
const { refusedMap } = within('refused.js');
const addon = within('addon.js');

// Line 1 has a mapping at column 0 and one at 10 with a name, line 2 none, and line 3 one at 5 without an original.
const small = '{"version":3,"sources":["a.js"],"names":["n"],"mappings":"AAAA,UACIA;;K"}';
const first = { source: 'a.js', line: 1, column: 0, name: null };
const last = { source: 'a.js', line: 2, column: 4, name: 'n' };
const nothing = { source: null, line: null, column: null, name: null };
const far = 2 ** 32;
// Why `{}` and `[]` are refused.
const noVersion = '`version` is missing, and the key must hold the number 3';
const noObject = 'the JSON value is a list, of which the length is 0, and must be an object';

let reported = 0;
const same = (got, wanted) => {
  assert.deepStrictEqual(got, wanted);
  reported += 1;
};
const refuses = (name, call, message, members = {}) => {
  assert.throws(call, { name, message, ...members });
  reported += 1;
};

function places() {
  const map = new smap.TraceMap(small);
  const ask = (line, column, bias) => smap.originalPositionFor(map, { line, column, bias });
  for (const column of [10, 203, far - 1, far, far + 3, 4294967499, 2 ** 53, 1e300, Infinity]) {
    same(ask(1, column), last);
    same(ask(1, column, smap.GREATEST_LOWER_BOUND), last);
    same(ask(2, column), nothing);
    same(ask(1, column, smap.LEAST_UPPER_BOUND), column === 10 ? last : nothing);
  }
  for (const line of [4, far, far + 1, far + 3, 2 ** 53, 1e300, Infinity]) {
    same(ask(line, 9), nothing);
    same(ask(line, 0, smap.LEAST_UPPER_BOUND), nothing);
  }
  same(ask(1, 3), first);
  same(ask(1, 3, smap.LEAST_UPPER_BOUND), last);
  same(ask(1, -0), first);
  for (const bias of [undefined, null]) same(ask(1, 3, bias), first);
  for (const bias of ['x', '-1', 0, -2, false]) refuses('TypeError', () => ask(1, 3, bias), /^`bias` must be GREATEST_LOWER_BOUND or LEAST_UPPER_BOUND$/);
  same(ask(3, Infinity), nothing);
  for (const line of [0, -0, -1, -far, -far + 1, -Infinity]) refuses('Error', () => ask(line, 0), /`line` must be greater than 0/);
  for (const column of [-1, -far, -far + 3, -Infinity]) {
    refuses('Error', () => ask(1, column), /`column` must be greater than or equal to 0/);
  }
  for (const other of [0.5, 1.5, -0.5, NaN, '1', 'x', '', null, undefined, true, 1n, [1], {}, new Number(1)]) {
    refuses('TypeError', () => ask(other, 0), /`line` must be a whole number/);
    refuses('TypeError', () => ask(1, other), /`column` must be a whole number/);
  }
  refuses('TypeError', () => ask(undefined, 0), '`line` must be a whole number, and not undefined');
  for (const other of [undefined, null, 7, {}, addon, small]) {
    refuses('TypeError', () => smap.originalPositionFor(other, { line: 1, column: 0 }), /TraceMap/);
  }
}

function many() {
  const map = new smap.TraceMap(small);
  const ask = (...numbers) => [...smap.lookUpMany(map, Uint32Array.of(...numbers))];
  const found = [2, 10, 0, 2, 4, 1, 0];
  const none = [0, 0, 0, 0, 0, 0, 0];
  same(ask(1, 12, 4, 0, 1, far - 1, far - 1, 0, 3, 7), [...found, ...none, ...found, ...none, 1, 5, 0, 0, 0, 0, 0]);
  same(ask(), []);
  same([...smap.lookUpMany(map, Uint32Array.of(9, 9, 1, 12).subarray(2))], found);
  const often = Array.from({ length: 2500 }, (_, i) => (i % 3 ? [1, 12] : [2, 0]));
  same(ask(...often.flat()), often.flatMap(([line]) => (line === 1 ? found : none)));
  for (const before of [0, 1, 600]) {
    refuses('Error', () => ask(...often.slice(0, before).flat(), 0, 12), /`line` must be greater than 0/);
  }
  const others = [[0, 12], Int32Array.of(0, 12), Float64Array.of(0, 12), Uint16Array.of(0, 12), Uint8Array.of(0, 12),
    new BigUint64Array(2), Buffer.alloc(8), new ArrayBuffer(8), new DataView(new ArrayBuffer(8)), '0 12', 7, null, undefined,
    { length: 2, 0: 0, 1: 12 }, Object.create(Uint32Array.prototype)];
  for (const other of others) refuses('TypeError', () => smap.lookUpMany(map, other), /Uint32Array/);
  refuses('TypeError', () => ask(0, 12, 0), /length/);
  refuses('TypeError', () => smap.lookUpMany({}, Uint32Array.of(0, 12)), /TraceMap/);
}

// The addon itself, beneath what index.js checks.
function beneath() {
  for (const name of ['smap/addon.js', 'smap/tracing.js']) refuses('Error', () => require(name), /not defined by "exports"/);
  const map = new smap.TraceMap(small);
  const { handle } = map.inner;
  addon.room.set([0, 12, 0]);
  addon.room[10] = handle.place;
  addon.lookUp();
  same([...addon.room.subarray(3, 10)], [2, 10, 0, 1, 4, 1, 0]);
  for (const number of [far, far + 3, -1, 0.5, NaN, Infinity, '0', null, undefined]) {
    for (const call of [addon.sourceName, addon.sourceContent, addon.isIgnored, addon.name]) {
      refuses('TypeError', () => call(handle, number), /whole number/);
    }
  }
  refuses('RangeError', () => addon.sourceName(handle, 9), 'no such source');
  refuses('TypeError', () => addon.lookUpMany(handle, new Uint32Array(2), new Uint32Array(6)), /lengths/);
  refuses('TypeError', () => addon.counts({}), /no map/);
  refuses('TypeError', () => addon.counts(), /arguments/);
  refuses('TypeError', () => addon.compose(handle, 0, handle, false, Buffer.alloc(0)), /twice/);
  map.close();
  refuses('Error', () => addon.lookUp(), /closed/);
  // What is no map, and no place.
  const table = new smap.Table({});
  for (const place of [table.inner.handle.place, handle.place + 1000, far - 1]) {
    addon.room[10] = place;
    refuses('Error', () => addon.lookUp(), /closed/);
  }
}

function maps() {
  for (const data of [small, Buffer.from(small), new Uint8Array(Buffer.from(small)), JSON.parse(small)]) {
    same(smap.originalPositionFor(new smap.TraceMap(data), { line: 1, column: 12 }), last);
  }
  same(new smap.TraceMap('{"version":3,"sources":["ä.js"],"names":[],"mappings":"AAAA"}').sources, ['ä.js']);
  const buffer = new ArrayBuffer(8);
  const others = [7, true, null, undefined, 7n, Symbol('map'), () => small, buffer, new DataView(buffer), new Uint16Array(8)];
  for (const other of others) refuses('TypeError', () => new smap.TraceMap(other), /a map must be a text/);
  refuses('Refused', () => new smap.TraceMap('no JSON'), /^refused: M2 NotJson\n  the file is no JSON text/, { code: 'M2', url: undefined });
  refuses('Refused', () => new smap.TraceMap([]), /M3 NotObject/, { code: 'M3' });
}

function reasons() {
  const refusing = (mappings, sources, lines, members) =>
    refuses('Refused', () => new smap.TraceMap({ version: 3, sources, mappings }), `refused: M14 Text 0 ${lines}`, {
      explanation: `${lines.slice(lines.indexOf('\n') + 1)}\n`,
      ...members,
    });
  refusing('AACA,ECAA', ['a.js'], `F10 SourceIndex line 1 byte 5
  segment "ECAA" at line 1, column 3, numbers 2, 1, 0, 0
  source index 1, and the map has 1 source`, { cause: 'F10', line: 0, value: 1, limit: 0, column: 2 });
  refusing(';D', [], `F7 Negative line 2 byte 1
  segment "D" at line 2, numbers -1
  column 0, and the least is 1`, { cause: 'F7', line: 1, value: -1, limit: 0, column: undefined });
  const known = { value: undefined, limit: undefined, column: undefined };
  const sources = '  `sources` is the number 7, and the key must hold a list of texts and nulls, at most 33,554,432 in the file';
  refuses('Refused', () => new smap.TraceMap('{"version":3,"sources":7,"mappings":""}'), `refused: M8 Sources\n${sources}`, { ...known, explanation: `${sources}\n` });
  refuses('Refused', () => new smap.TraceMap(Uint8Array.of(31, 139, 8)), /^refused: M2 NotJson\n  the file is packed with gzip/, known);
  refuses('Refused', () => new smap.TraceMap(small, null, { maxNames: 3 }), 'refused: M18 LongNames', { ...known, explanation: undefined });
  const numbers = new Float64Array(6);
  for (const bad of [7, null, 'x']) refuses('TypeError', () => addon.refusalExplain(bad, numbers, new Float64Array(4)), /no Uint8Array/);
  refuses('TypeError', () => addon.refusalExplain(Buffer.from('{}'), numbers, new Float64Array(3)), /no Float64Array/);
  same(addon.refusalExplain(Buffer.from('{}'), numbers, new Float64Array(4)), null);
}

function bases() {
  for (const url of ['https://e.test/x/b.js', new URL('https://e.test/x/b.js')]) {
    same(new smap.TraceMap(small, url).resolvedSources, ['https://e.test/x/a.js']);
  }
  for (const url of [undefined, null, '']) same(new smap.TraceMap(small, url).resolvedSources, ['a.js']);
  same(new smap.TraceMap(small, `https://e.test/${'x'.repeat(100000)}/b.js`).resolvedSources[0].length, 100020);
  for (const url of ['https://', 'https://[/a.js']) {
    refuses('Refused', () => new smap.TraceMap(small, url), `the base is no URL: "${url}"`, { code: 'usage' });
  }
  refuses('Refused', () => new smap.TraceMap(small, `https://[${'x'.repeat(99991)}`), /the base is no URL: .* 99800 characters more$/);
  for (const url of [7, false, {}, [], Buffer.from('https://e.test/')]) {
    refuses('TypeError', () => new smap.TraceMap(small, url), /`mapUrl` must be a text/);
  }
  // No base of a test is so long.
  const long = refusedMap(Buffer.alloc(0), Float64Array.of(addon.codes.U1, 0, 0, 0, 0, 0), 'https://e.test/');
  same([long.code, long.message], ['U1', 'the base is too long: "https://e.test/"']);
  same(refusedMap(Buffer.alloc(0), Float64Array.of(99, 0, 0, 0, 0, 0), '').message, 'refused: 99');
}

function paths() {
  // The path of the map, its root, a source, and what that is called.
  const rows = [
    ['dist/a.js.map', undefined, '../src/a.ts', 'src/a.ts'],
    ['a.js.map', 'src', './a.ts', 'src/a.ts'],
    ['./dist/a.js.map', '', 'b.ts', './dist/b.ts'],
    ['../dist/a.js.map', undefined, '../../b.ts', '../../b.ts'],
    ['/srv/dist/a.js.map', null, '../../../b.ts', '/b.ts'],
    ['no URL', undefined, 'x/../b.ts', 'b.ts'],
    ['dist/a.js.map', undefined, 'https://e.test/x/../b.ts', 'https://e.test/b.ts'],
    ['dist/a.js.map', 'https://e.test/s', 'b.ts', 'https://e.test/s/b.ts'],
    ['dist/a.js.map', '/root', '../b.ts', '/b.ts'],
    ['dist/a.js.map', undefined, '//e.test/../b.ts', '//e.test/../b.ts'],
    ['dist/a.js.map', undefined, 'b.vue?x=../y#z/..', 'dist/b.vue?x=../y#z/..'],
    ['dist/a.js.map', 'src', null, null],
    ['//e.test/js/o.map', undefined, 'b.ts', '//e.test/js/b.ts'],
    ['//e.test/js/o.map', undefined, '../../../b.ts', '//e.test/b.ts'],
    ['//e.test/js/o.map', 'src', '/b.ts', '//e.test/js/src/b.ts'],
    ['//e.test/js/o.map', undefined, '/x/../b.ts', '//e.test/b.ts'],
    ['//e.test', undefined, 'b.ts', '//e.test/b.ts'],
    ['///js/o.map', undefined, 'b.ts', '///js/b.ts'],
    ['dist/o.map?v=/2/3', undefined, 'b.ts', 'dist/b.ts'],
    ['dist/o.map#/', undefined, '../b.ts?/x', 'b.ts?/x'],
    ['//e.test?/o.map', undefined, 'b.ts', '//e.test/b.ts'],
  ];
  for (const [path, sourceRoot, source, name] of rows) {
    const regular = { version: 3, sourceRoot, sources: ['c.ts', source], names: [], mappings: 'ACAA' };
    const sections = { version: 3, sections: [{ offset: { line: 0, column: 0 }, map: regular }] };
    for (const given of [regular, JSON.stringify(regular), `)]}'\n${JSON.stringify(regular)}`, Buffer.from(`\ufeff${JSON.stringify(sections)}`)]) {
      const map = new smap.TraceMap(given, path);
      same(map.resolvedSources[1], name);
      same(smap.originalPositionFor(map, { line: 1, column: 0 }), { source: name, line: 1, column: 0, name: null });
      same(JSON.parse(map.write()).sources[1], name);
      same(map.sources[1], typeof given === 'object' && Buffer.isBuffer(given) ? name : source);
      map.close();
    }
  }
  for (const url of ['a.js', 'https://e.test/a.js']) {
    refuses('Refused', () => new smap.TraceMap('no JSON', url), new RegExp(`^refused: ${url}: M2 NotJson\n`), { code: 'M2', url });
  }
  refuses('RangeError', () => new smap.TraceMap(small, 'a.js', 0), /`interval` must be 1 to 4096/);
}

// A text that looks like the path of a map, which is told where it is no JSON.
function pathsForMaps() {
  const hint = /\n {2}a text is that of a map: `fs\.readFileSync` reads the file at a path$/;
  for (const path of ['dist/a.js.map', 'ä.map', 'C:\\dist\\a.map']) {
    refuses('Refused', () => new smap.TraceMap(path), hint, { code: 'M2' });
    refuses('Refused', () => new smap.Table({ 'a.js': path }), hint, { code: 'M2', url: 'a.js' });
    refuses('Refused', () => smap.composeAll(new smap.TraceMap(small), { 'a.js': path }), hint, { code: 'M2', url: 'a.js' });
    for (const maps of [new smap.Table({}, { load: () => path }), new smap.Maps({ load: () => path, maxBytes: 1e6 })]) {
      smap.rewrite(maps, 'f@a.js:1:1');
      same(hint.test(maps.refusals[0].error.message), true);
    }
  }
  for (const other of [Buffer.from('dist/a.js.map'), '{dist/a.js.map', 'a\nb', '', 'x'.repeat(4097), '[]', '7']) {
    assert.throws(() => new smap.TraceMap(other), ({ name, message }) => name === 'Refused' && !message.includes('readFileSync'));
    reported += 1;
  }
}

// Half of a surrogate pair that stands alone has no bytes.
function halves() {
  for (const half of ['\ud83d', '\ude00\ud83d', '\ufffd\ud83d']) {
    const calls = [() => new smap.TraceMap(small.replace('a.js', half)), () => new smap.TraceMap(small, half), () => new smap.Table({ [half]: small })];
    for (const call of calls) refuses('TypeError', call, /half of a surrogate pair alone$/);
    const [map, table] = [new smap.TraceMap(small), new smap.Table({ 'b.js': small })];
    const texts = [`x${half}\n    at f (b.js:1:11)\n`, half, `${'ä'.repeat(1e6)}${half}`];
    for (const text of texts) {
      for (const options of [{}, { anywhere: true }]) {
        refuses('TypeError', () => smap.rewrite(table, text, options), '`trace` has half of a surrogate pair alone');
        refuses('TypeError', () => smap.frameUrls(text, options), '`trace` has half of a surrogate pair alone');
      }
      for (const call of ['bytesBySource', 'fit', 'withGenerated']) refuses('TypeError', () => map[call](text), '`generated` has half of a surrogate pair alone');
    }
    same(table.counts, null);
  }
  const whole = '\u{1f600}\ufffd';
  same(String(smap.rewrite(new smap.Table({ 'b.js': small }), `${whole}\nf@b.js:1:11`)), `${whole}\nf@a.js:2:5`);
  same(new smap.TraceMap('{"version":3,"sources":[],"mappings":""}').bytesBySource(whole), { sources: [], unmapped: 7 });
  // What is written to a stream are the bytes that node makes of it.
  const stream = new smap.RewriteStream(new smap.Table({ 'b.js': small }));
  stream.write('x\ud83d\nf@b.js:1:11\n');
  same(String(stream.read()), 'x\ufffd\nf@a.js:2:5\n');
  same(new smap.TraceMap(small.replace('a.js', whole), `${whole}/b.js`).resolvedSources, [`${whole}/${whole}`]);
  same(String(smap.rewrite(new smap.Table({ [whole]: small }), `f@${whole}:1:11`)), 'f@a.js:2:5');
}

// What trace-mapping has too, of maps that are worked out by hand.
function members() {
  const map = new smap.TraceMap({
    version: 3, file: 'f.js', sourceRoot: 'src/', sources: ['./a.js', null, 'b.js'], sourcesContent: ['x', null], names: ['n'], ignoreList: [2, 0], mappings: 'AAAA,UACIA;CEAA;;K,;',
  });
  const members = () => [map.version, map.file, map.sourceRoot, map.sources, map.sourcesContent, map.names, map.ignoreList, map.resolvedSources];
  same(members(), [3, 'f.js', 'src/', ['./a.js', null, 'b.js'], ['x', null], ['n'], [2, 0], ['src/./a.js', null, 'src/b.js']]);
  same(members().every((value, i) => value === members()[i]), true);
  const list = [
    { generatedLine: 1, generatedColumn: 0, source: 'src/./a.js', originalLine: 1, originalColumn: 0, name: null },
    { generatedLine: 1, generatedColumn: 10, source: 'src/./a.js', originalLine: 2, originalColumn: 4, name: 'n' },
    { generatedLine: 2, generatedColumn: 1, source: 'src/b.js', originalLine: 2, originalColumn: 4, name: null },
    { generatedLine: 4, generatedColumn: 5, source: null, originalLine: null, originalColumn: null, name: null },
  ];
  same([...map.mappings()], list);
  const each = [];
  smap.eachMapping(map, (mapping) => each.push(mapping));
  same(each, list);
  refuses('RangeError', () => smap.eachMapping(map, () => { throw new RangeError('stop'); }), 'stop');
  const decoded = [[[0, 0, 0, 0], [10, 0, 1, 4, 0]], [[1, 2, 1, 4]], [], [[5]], []];
  same(smap.decodedMappings(map), decoded);
  same(smap.encodedMappings(map), 'AAAA,UACIA;CEAA;;K;');
  same([smap.traceSegment(map, 0, 9), smap.traceSegment(map, 0, Infinity), smap.traceSegment(map, 3, 5)], [[0, 0, 0, 0], [10, 0, 1, 4, 0], [5]]);
  same([smap.traceSegment(map, 3, 4), smap.traceSegment(map, 4, 0), smap.traceSegment(map, 9, 0), smap.traceSegment(map, 0, -1)], [null, null, null, null]);
  refuses('Error', () => smap.traceSegment(map, -1, 0), /`line` must be greater than or equal to 0/);
  for (const bad of [0.5, NaN, '0', null, undefined]) {
    refuses('TypeError', () => smap.traceSegment(map, bad, 0), /`line` must be a whole number/);
    refuses('TypeError', () => smap.traceSegment(map, 0, bad), /`column` must be a whole number/);
  }
  same(['./a.js', 'src/./a.js', 'b.js', null, 'a.js'].map((source) => smap.sourceContentFor(map, source)), ['x', 'x', null, null, null]);
  same(['./a.js', 'src/b.js', null, 'a.js'].map((source) => smap.isIgnored(map, source)), [true, true, false, false]);
  for (const bad of [3, undefined, true, ['./a.js'], {}]) {
    const asked = { source: bad, line: 1, column: 0 };
    for (const call of [() => smap.sourceContentFor(map, bad), () => smap.isIgnored(map, bad), () => smap.generatedPositionFor(map, asked), () => smap.allGeneratedPositionsFor(map, asked)]) {
      refuses('TypeError', call, /^`source` must be a text, and not /);
    }
  }
  const { version, file, sourceRoot, sources, sourcesContent, names, ignoreList } = map;
  same(smap.decodedMap(map), { version, file, names, sourceRoot, sources, sourcesContent, mappings: decoded, ignoreList });
  same(smap.encodedMap(map), { version, file, names, sourceRoot, sources, sourcesContent, mappings: 'AAAA,UACIA;CEAA;;K;', ignoreList });
  same(new smap.TraceMap(map, 7, 'x') === map && new smap.AnyMap(map) === map, true);
  const bare = new smap.TraceMap('{"version":3,"sources":[],"x_google_ignoreList":[],"mappings":";"}');
  same([bare.file, bare.sourceRoot, bare.sourcesContent, bare.names, bare.ignoreList], [undefined, undefined, undefined, [], []]);
  same(smap.decodedMappings(bare), [[], []]);
  same(new smap.TraceMap(small).ignoreList, undefined);
  // An index map has what its sections have together.
  const part = (source, mappings, more) => ({ version: 3, sourceRoot: 'r', sources: [source], names: ['m'], mappings, ...more });
  const at = (line, column, map) => ({ offset: { line, column }, map });
  const index = { version: 3, file: 'i.js', sections: [at(1, 2, part('p.js', 'AAAAA;;', { sourcesContent: ['y'] })), at(2, 0, part('q.js', [[[3, 0, 1, 2]], []], { ignoreList: [0] }))] };
  const whole = smap.AnyMap(index);
  same([whole.file, whole.sourceRoot, whole.sources, whole.sourcesContent, whole.names, whole.ignoreList], ['i.js', undefined, ['r/p.js', 'r/q.js'], ['y', null], ['m', 'm'], [1]]);
  same([smap.decodedMappings(whole), smap.encodedMappings(whole)], [[[], [[2, 0, 0, 0, 0]], [[3, 1, 1, 2]], []], ';EAAAA;GCCE;']);
  same([smap.decodedMappings(smap.AnyMap({ version: 3, sections: [] })), smap.AnyMap({ version: 3, sections: [] }).sources], [[], []]);
  // Its lines would be more than there can be.
  const far = smap.AnyMap({ version: 3, sections: [at(2147483647, 0, part('p.js', 'A'))] });
  refuses('Refused', () => smap.decodedMappings(far), 'refused: O1 TextTooLong');
  same([...far.mappings()].length, 1);
  for (const bad of [7, null, small, {}]) {
    for (const call of ['eachMapping', 'decodedMappings', 'encodedMappings', 'decodedMap', 'encodedMap', 'traceSegment', 'sourceContentFor', 'isIgnored']) {
      refuses('TypeError', () => smap[call](bad, 0, 0), /TraceMap|undefined/);
    }
  }
}

// A source's texts are asked for by themselves: no JSON of the map is parsed for them, and what was given is not kept.
function sourceTexts() {
  const content = 'é"\\\n'.repeat(1000);
  const object = { version: 3, sourceRoot: 'r', sources: ['a.js', null, 'b.js'], sourcesContent: [content, null], names: [], mappings: 'AAAA' };
  for (const given of [object, JSON.stringify(object), Buffer.from(JSON.stringify(object))]) {
    const { parse } = JSON;
    let most = 0;
    JSON.parse = (text) => {
      most = Math.max(most, text.length);
      return parse(text);
    };
    try {
      const map = new smap.TraceMap(given);
      same([0, 1, 2].map((index) => smap.sourceName(map, index)), ['r/a.js', null, 'r/b.js']);
      same([0, 1, 2].map((index) => smap.sourceContent(map, index)), [content, null, null]);
      same(['a.js', 'r/a.js', null, 'r/b.js', 'c.js'].map((source) => smap.sourceContentFor(map, source)), [content, content, null, null, null]);
      same([smap.isIgnored(map, 'a.js'), map.sourcesContent, map.sourcesContent === map.sourcesContent], [false, [content, null], true]);
      same(smap.encodedMappings(map), 'AAAA');
    } finally {
      JSON.parse = parse;
    }
    same(most < 100, true);
  }
  const map = new smap.TraceMap(object);
  for (const call of [smap.sourceName, smap.sourceContent]) {
    for (const number of [3, -1, far, 2 ** 53, Infinity]) refuses('RangeError', () => call(map, number), 'no such source');
    for (const bad of [0.5, NaN, '0', null, undefined]) refuses('TypeError', () => call(map, bad), /`source` must be a whole number/);
    for (const bad of [7, null, small]) refuses('TypeError', () => call(bad, 0), /a TraceMap is wanted/);
  }
  v8.setFlagsFromString('--expose-gc');
  const collect = vm.runInNewContext('gc');
  const large = Buffer.from(JSON.stringify({ ...object, sourcesContent: ['x'.repeat(2 ** 20)] }));
  // A thread of its own lets go what is collected.
  const held = (most) => {
    let bytes = Infinity;
    for (let round = 0; round < 50 && bytes > most; round++) {
      collect();
      bytes = process.memoryUsage().arrayBuffers;
    }
    return bytes;
  };
  const before = held(0);
  const maps = Array.from({ length: 30 }, () => new smap.TraceMap(Buffer.from(large)));
  same(maps.every(({ sources }) => sources.length === 3), true);
  const most = before + 10 * 2 ** 20;
  same(held(most) <= most, true);
  maps.forEach((each) => each.close());
}

// What the text of a map has, however its JSON is written.
function spellings() {
  const section = { version: 3, sources: ['s.js'], names: [], mappings: ';;A' };
  const regular = {
    version: 3, other: { a: ['}]"\\', { b: [] }, 1e3, true, null] }, file: 'f.js', sourceRoot: '"r"', sources: ['a\\"b.js', null, 'ä'],
    sourcesContent: ['{"mappings":"\\\\"', null, ']\\'], names: [], ignoreList: [2], mappings: ';;AAAA;C,;,;',
  };
  const index = { version: 3, file: 'f.js', sections: [{ offset: { line: 1, column: 0 }, map: section }, { map: { ...section, mappings: ';' }, offset: { column: 3, line: 9 } }] };
  const reversed = (object) => Object.fromEntries(Object.entries(object).reverse());
  for (const [object, lines] of [[regular, 6], [index, 11], [{ version: 3, sections: [] }, 0], [{ ...index, sections: null, ...regular }, 6]]) {
    const texts = [object, reversed(object)].flatMap((one) => [0, 1, '\t\r\n'].map((indent) => JSON.stringify(one, null, indent)));
    const more = texts.flatMap((text) => [text, `\ufeff \n${text}\n`, `)]}'x\n${text}`, text.replace('"mappings"', '"m\\u0061ppings"').replace(/;"/g, '\\u003b"')]);
    // Of a key that stands twice the last value counts.
    if (!object.sections) more.push(...texts.map((text) => text.replace('{', '{"sources":["old.js"],"mappings":";;;;;;;","sourceRoot":"old",')));
    for (const text of more) {
      same(new smap.TraceMap(text, 'd/m.js').resolvedSources, new smap.TraceMap(text).resolvedSources.map((name) => name && `d/${name}`));
      const map = new smap.TraceMap(text);
      if (!object.sections) same([map.sources, map.sourceRoot, map.sourcesContent, map.ignoreList], [regular.sources, '"r"', regular.sourcesContent, [2]]);
      same(smap.decodedMappings(map).length, lines);
      map.close();
    }
  }
  // Any bytes are passed over.
  const { chance, below } = chances;
  const pieces = ['{', '}', '[', ']', '"', '\\', ',', ':', ' ', '\0', 'a', '1', 'null', '\x01', '"k":'];
  for (let round = 0; round < 3000; round++) {
    const bytes = Buffer.from(Array.from({ length: below(30) }, () => pieces[below(pieces.length)]).join('') + (chance() < 0.1 ? '"' : ''));
    for (let at = 0; at <= bytes.length + 1; at++) {
      const parts = addon.members(bytes, at);
      assert.ok(parts.every((end, i) => end <= bytes.length + 1 && (i === 0 || end >= parts[i - 1])), `${bytes}`);
    }
  }
  same(true, true);
}

// A map's own members are those that trace-mapping's has, and may be assigned.
function ownMembers() {
  const map = new smap.TraceMap({ version: 3, file: 'f.js', sourceRoot: 'r', sources: ['a.js'], names: ['n'], mappings: 'AAAAA' });
  const members = { version: 3, file: 'f.js', names: ['n'], sourceRoot: 'r', sources: ['a.js'], sourcesContent: undefined, ignoreList: undefined, resolvedSources: ['r/a.js'] };
  same(Object.keys(map), Object.keys(members));
  same({ ...map }, members);
  same(JSON.stringify(map), '{"version":3,"file":"f.js","names":["n"],"sourceRoot":"r","sources":["a.js"],"mappings":"AAAAA"}');
  same(JSON.parse(JSON.stringify(map)), JSON.parse(JSON.stringify(smap.encodedMap(map))));
  same(util.inspect(map), `TraceMap ${util.inspect(members)}`);
  same(util.inspect({ a: { b: { c: map } } }).replace(/\s+/g, ' '), '{ a: { b: { c: [TraceMap] } } }');
  map.sourceRoot = 'other';
  map.sources = ['b.js'];
  same([map.sourceRoot, map.sources, smap.encodedMap(map).sourceRoot, { ...map }.sources, Object.keys(map)], ['other', ['b.js'], 'other', ['b.js'], Object.keys(members)]);
  same(smap.originalPositionFor(map, { line: 1, column: 0 }).source, 'r/a.js');
  map.close();
  same(util.inspect(map), 'TraceMap (closed)');
  same(smap.FlattenMap === smap.AnyMap, true);
}

function decodedMaps() {
  const bare = { sources: ['a.js'], names: [], mappings: [[[0, 0, 0, 0]]] };
  for (const map of [bare, { version: 3, sections: [{ offset: { line: 0, column: 0 }, map: bare }] }]) {
    same([smap.encodedMappings(new smap.TraceMap(map)), new smap.TraceMap(map).version], ['AAAA', 3]);
  }
  for (const version of [null, 2, '3']) refuses('Refused', () => new smap.TraceMap({ ...bare, version }), /M4 Version/);
  refuses('Refused', () => new smap.TraceMap({ ...bare, mappings: 'AAAA' }), /M4 Version/);
  const given = (mappings) => ({ version: 3, sources: ['a.js'], names: ['n'], mappings });
  const lines = [[[0, 0, 0, 0], [10, 0, 1, 4, 0]], [], [[5]]];
  for (const map of [given(lines), { toJSON: () => given(lines) }, { toJSON: () => JSON.parse(small) }]) {
    const read = new smap.TraceMap(map);
    same([smap.encodedMappings(read), smap.decodedMappings(read), read.sources], ['AAAA,UACIA;;K', lines, ['a.js']]);
  }
  same(smap.decodedMappings(new smap.TraceMap(given([]))), []);
  const most = 2147483647;
  const far = [[[0, 0, most, 0], [most, 0, 0, most]]];
  same(smap.decodedMappings(new smap.TraceMap(given(far))), far);
  same(smap.encodedMappings(new smap.TraceMap(given(far))), 'AA+/////DA,+/////DA//////D+/////D');
  const bad = [[[0.5]], [[-1]], [[most + 1]], [['0']], [[NaN]], [[]], [[0, 0]], [[0, 0, 0]], [[0, 0, 0, 0, 0, 0]], [7], ['AAAA'], [null], Array(1), [, [0]], Array(5)].map((line) => [line]);
  const holes = [[[0, 0, 0, 0]]];
  holes[5] = [[0, 0, 1, 0]];
  for (const mappings of [...bad, [7], ['AAAA'], [null], holes, Array(2 ** 32 - 1)]) refuses('TypeError', () => new smap.TraceMap(given(mappings)), /^decoded `mappings` must be lines of segments/);
  refuses('Refused', () => new smap.TraceMap(given([[], [[7], [5], [3]]])), 'refused: E1 NotSorted 1', { code: 'E1', line: 1, value: 5, limit: 7, column: 5 });
  const index = { version: 3, sections: [{ offset: { line: 0, column: 0 }, map: given([[[5], [3]]]) }] };
  refuses('Refused', () => new smap.TraceMap(index), 'refused: E1 NotSorted 1', { code: 'E1', line: 0, value: 3, limit: 5, column: 3 });
  refuses('Refused', () => new smap.TraceMap(given([[[0, 1, 0, 0]]])), /F10 SourceIndex/, { cause: 'F10' });
  refuses('Refused', () => new smap.TraceMap(JSON.stringify(given(lines))), /M13 Mappings/, { code: 'M13' });
  for (const sections of [[null], [7], [[]], [{}], [{ map: null }]]) refuses('Refused', () => new smap.TraceMap({ version: 3, sections }), /M[56] Section/);
  same(smap.originalPositionFor(new smap.TraceMap(small), { line: 1, column: 12 }), last);
  const table = new smap.Table({ 'b.js': given(lines) });
  same(String(smap.rewrite(table, 'f@b.js:1:11')), 'f@a.js:2:5');
}

// Bytes, worked out by hand: a mapping inside a pair of units begins after it, and line ends and what is before a line's first
// mapping are nobody's.
function bytes() {
  const lines = [[[1, 0, 0, 0], [2, 1, 0, 0]], [[0, 1, 0, 0], [3, 0, 0, 0], [5]], [], [[90, 0, 0, 0]]];
  const map = new smap.TraceMap({ version: 3, sources: ['a.js', 'b.js', 'c.js'], names: [], mappings: lines });
  const text = 'abc\nx\u00e9\u{1f600}yz\n\nlast';
  for (const given of [text, Buffer.from(text)]) same(map.bytesBySource(given), { sources: [2, 8, 0], unmapped: 9 });
  same(map.bytesBySource(''), { sources: [0, 0, 0], unmapped: 0 });
  same(new smap.TraceMap('{"version":3,"sources":[],"mappings":""}').bytesBySource('x'), { sources: [], unmapped: 1 });
  refuses('Refused', () => map.bytesBySource(Buffer.of(97, 255)), 'refused: NotUtf8', { code: 'NotUtf8' });
  refuses('Refused', () => map.bytesBySource(Buffer.alloc(67108865, 'x')), 'refused: M1 TooLarge', { code: 'M1' });
  for (const bad of [7, null, undefined, {}, [text]]) refuses('TypeError', () => map.bytesBySource(bad), /`generated` must be a text or a Uint8Array/);
}

// What sources of a table's maps are named at paths, by hand.
function pathsOfSources() {
  const map = '{"version":3,"sources":["../../src/x.ts"],"mappings":"AAAA"}';
  const named = (url, options) => `${smap.rewrite(new smap.Table({ [url]: map }, options), `    at f (${url}:1:1)`)}`.slice(10, -5);
  same(named('/srv/app/dist/util/x.js', { paths: true }), '/srv/app/src/x.ts');
  same(named('C:\\app\\dist\\util\\x.js', { paths: true }), 'C:\\app\\src\\x.ts');
  same(named('https://e.test/dist/util/x.js', { paths: true }), 'https://e.test/src/x.ts');
  for (const options of [{}, { paths: false }]) same(named('/srv/app/dist/util/x.js', options), '../../src/x.ts');
  refuses('TypeError', () => named('/srv/x.js', { paths: 1 }), /paths/);
}

// Where originals stand, by hand: two places of one original, one of another column, and one of another source.
function generatedPlaces() {
  const map = new smap.TraceMap('{"version":3,"sources":["a","b"],"mappings":"AAAA,EAAE,EAAF,EAAI;A,ECAA"}');
  const [a, b] = [(column, bias) => ({ source: 'a', line: 1, column, bias }), { source: 'b', line: 1, column: 4 }];
  const all = (needle) => smap.allGeneratedPositionsFor(map, needle).map(({ line, column }) => `${line}:${column}`).join(' ');
  const one = (needle) => Object.values(smap.generatedPositionFor(map, needle)).join(':');
  same([0, 1, 2, 3, 5].map((column) => all(a(column))), ['1:0 1:4', '1:2', '1:2', '1:6', '']);
  same([0, 1, 2, 3, 5].map((column) => all(a(column, 1))), ['1:0 1:4', '1:0 1:4', '1:2', '1:2', '1:6']);
  same([0, 1, 2, 3, 5].map((column) => one(a(column))), ['1:0', '1:4', '1:2', '1:2', '1:6']);
  same([0, 1, 2, 3, 5].map((column) => one(a(column, -1))), ['1:4', '1:2', '1:2', '1:6', ':']);
  same([all(b), all({ ...b, bias: 1 }), one(b), all({ ...b, source: 'c' }), one({ ...b, line: 9 })], ['2:2', '2:2', '2:2', '', ':']);
  same([one({ ...b, column: Infinity }), one({ ...b, column: Infinity, bias: -1 }), one({ ...b, line: Infinity })], ['2:2', ':', ':']);
  for (const ask of [all, one]) {
    refuses('Error', () => ask({ ...b, line: 0 }), /greater than 0/);
    refuses('Error', () => ask({ ...b, column: -1 }), /greater than or equal to 0/);
    refuses('TypeError', () => ask({ ...b, column: 1.5 }), /whole number/);
    same([ask({ ...b, bias: undefined }), ask({ ...b, bias: null }), ask({ ...b, source: null })], ['2:2', '2:2', ask({ ...b, source: 'c' })]);
    for (const bias of ['x', '1', 0, 2, true, {}]) refuses('TypeError', () => ask({ ...b, bias }), /^`bias` must be GREATEST_LOWER_BOUND or LEAST_UPPER_BOUND$/);
  }
  map.close();
  for (const ask of [all, one]) refuses('Error', () => ask(b), 'the map is closed');
}

// How maps fit texts, by hand: `let` is not `var`, the second line's place is past the content, and the third source has none.
function fit() {
  const lines = [[[0, 0, 0, 0], [4, 0, 0, 4]], [[0, 0, 1, 0], [2, 1, 0, 0]]];
  const map = new smap.TraceMap({ version: 3, sources: ['a.js', 'b.js'], sourcesContent: ['let ab'], names: [], mappings: lines });
  const counts = { mappings: 4, past: 0, inside: 0, compared: 3, outside: 1, same: 1 };
  for (const given of ['var ab\n ;x', Buffer.from('var ab\n ;x')]) same(map.fit(given), { fits: true, ...counts });
  same(map.fit('var ab\nabc'), { fits: false, ...counts, inside: 1 });
  same(map.fit(''), { fits: false, ...counts, past: 2, same: 0 });
  refuses('Refused', () => map.fit(Buffer.of(97, 255)), 'refused: NotUtf8', { code: 'NotUtf8' });
  refuses('Refused', () => map.fit(Buffer.alloc(67108865, 'x')), 'refused: M1 TooLarge', { code: 'M1' });
  for (const bad of [7, null, undefined, {}]) refuses('TypeError', () => map.fit(bad), /`generated` must be a text or a Uint8Array/);
}

// Bytes that another thread could change are copied, for each call that reads some.
function shared() {
  const sharing = (text) => {
    const bytes = new Uint8Array(new SharedArrayBuffer(Buffer.byteLength(text)));
    bytes.set(Buffer.from(text));
    return bytes;
  };
  refuses('TypeError', () => addon.read(sharing(small), Buffer.alloc(0), false, 64, 0, new Float64Array(6)), /shared/);
  for (const url of [undefined, 'dist/a.js', 'https://e.test/a.js']) {
    const given = sharing(small);
    const map = new smap.TraceMap(given, url);
    given.fill(0);
    same([map.sources, map.bytesBySource(sharing('x'))], [['a.js'], { sources: [1], unmapped: 0 }]);
  }
  const trace = sharing('f@a.min.js:1:11\nf@b.min.js:1:11\n');
  const load = (url) => {
    trace.fill(0);
    return url === 'a.min.js' ? sharing(small) : null;
  };
  const wanted = 'f@a.js:2:5\nf@b.min.js:1:11\n';
  same(String(smap.rewrite(new smap.Table({}, { load }), trace)), wanted);
  const outer = new smap.TraceMap(small);
  same(smap.composeAll(outer, { 'a.js': sharing(small) }), smap.composeAll(outer, { 'a.js': small }));
  const stream = new smap.RewriteStream(new smap.Table({ 'a.min.js': sharing(small) }));
  stream.write(sharing('f@a.min.js:1:11\n'));
  same(String(stream.read()), 'f@a.js:2:5\n');
}

function intervals() {
  for (const interval of [1, 64, 4096, undefined]) same(new smap.TraceMap(small, null, interval).names, ['n']);
  for (const interval of [0, -1, -far + 64, 4097, far - 1, far, far + 64, 2 ** 53]) {
    for (const given of [interval, { interval }]) {
      refuses('RangeError', () => new smap.TraceMap(small, null, given), `\`interval\` must be 1 to 4096, and not ${interval}`);
      refuses('RangeError', () => smap.AnyMap('no JSON', undefined, given), /`interval`/);
    }
  }
  for (const interval of [0.5, 64.5, NaN, '64', null, true, 64n, Infinity, -Infinity]) {
    refuses('TypeError', () => new smap.TraceMap(small, null, interval), /`interval` must be a whole number/);
  }
  // The library takes the same ones.
  const refused = new Float64Array(6);
  const read = (interval) => addon.read(Buffer.from(small), Buffer.alloc(0), false, interval, 100, refused);
  for (const interval of [1, 4096]) addon.closeMap(read(interval));
  for (const interval of [0, 4097]) same([read(interval), addon.codeText(refused[1])], [null, 'B1 Interval']);
}

function compositions(path) {
  const [map, other] = [new smap.TraceMap(small), new smap.TraceMap(small)];
  for (const source of [1, -1, -far, far - 1, far, 2 ** 53, Infinity]) {
    for (const inner of [map, other]) {
      refuses('Refused', () => smap.compose(map, source, inner), 'refused: C1 SourceIndex', { code: 'C1' });
    }
  }
  for (const source of [0.5, NaN, '0', null, undefined, false]) {
    refuses('TypeError', () => smap.compose(map, source, other), /`source` must be a whole number/);
  }
  for (const given of [7, small, null, {}]) {
    refuses('TypeError', () => smap.compose(map, 0, given), /TraceMap/);
    refuses('TypeError', () => smap.compose(given, 0, map), /TraceMap/);
  }
  same(smap.compose(map, 0, map), smap.compose(map, 0, other));
  const [large, again] = [new smap.TraceMap(fs.readFileSync(path)), new smap.TraceMap(fs.readFileSync(path))];
  for (const source of large.sources.keys()) same(smap.compose(large, source, large), smap.compose(large, source, again));
  // So many lines that it is not written.
  const section = { version: 3, sources: ['a.js'], names: [], mappings: 'A' };
  const long = { version: 3, sections: [{ offset: { line: 67108864, column: 0 }, map: section }] };
  const outer = new smap.TraceMap(long);
  refuses('Refused', () => outer.write(), 'refused: O1 TextTooLong');
  for (const inner of [outer, new smap.TraceMap(long)]) {
    refuses('Refused', () => smap.compose(outer, 0, inner), 'refused: C2 TooLarge', { code: 'C2' });
    refuses('Refused', () => smap.compose(outer, 1, inner), 'refused: C1 SourceIndex', { code: 'C1' });
  }
}

function composingAll() {
  // Its lines 1 and 2 come from two sources of one name, and line 3 from a third one.
  const outer = '{"version":3,"sources":["x/a.js","x/a.js","https://e.test/y/b.js"],"names":[],"mappings":"AAAA;ACAA;ACAA"}';
  const inner = '{"version":3,"sources":["../s.ts"],"names":[],"mappings":"AAAA"}';
  const allOf = (...names) => ['x/a.js', 'x/a.js', 'https://e.test/y/b.js', ...names];
  const sources = (text) => new smap.TraceMap(text).sources;
  const [map, second] = [new smap.TraceMap(outer), new smap.TraceMap(inner)];
  const isOpen = () => same(second.sources, ['../s.ts']);
  same(sources(smap.composeAll(map)), allOf());
  same(sources(smap.composeAll(map, [['x/a.js', inner], [2, inner]])), allOf('s.ts', 's.ts', 'https://e.test/s.ts'));
  same(sources(smap.composeAll(map, { 'x/a.js': JSON.parse(inner) })), allOf('s.ts', 's.ts'));
  // One map for two sources, which stays open, and a map that is its own inner one.
  same(sources(smap.composeAll(map, new Map([['x/a.js', second]]))), allOf('s.ts', 's.ts'));
  same(sources(smap.composeAll(map, [[0, map]])), allOf('x/x/a.js', 'x/x/a.js', 'https://e.test/y/b.js'));
  isOpen();
  // A map that was read before has the names of then.
  same(sources(smap.composeAll(map, [[2, second]])), allOf('../s.ts'));
  const elsewhere = new smap.TraceMap(inner, 'https://f.test/y/b.js');
  same(sources(smap.composeAll(map, { 'x/a.js': elsewhere })), allOf('https://f.test/s.ts', 'https://f.test/s.ts'));
  same(sources(smap.composeAll(map, [[2, inner]], { prune: true })), ['x/a.js', 'https://e.test/s.ts']);
  for (const source of [3, -1, -far, far - 1, far, 2 ** 53, Infinity]) {
    for (const load of [undefined, () => null]) {
      const call = (...inners) => smap.composeAll(map, inners, { load });
      refuses('Refused', () => call([source, inner]), 'refused: C1 SourceIndex', { code: 'C1' });
      refuses('Refused', () => call([0, second], [source, inner]), 'refused: C1 SourceIndex', { code: 'C1' });
    }
  }
  isOpen();
  refuses('Refused', () => smap.composeAll(map, { 'a.js': inner }), 'refused: C4 NoSource a.js', { code: 'C4' });
  refuses('Refused', () => smap.composeAll(map, { 'x/a.js': '{}' }), `refused: x/a.js: M4 Version\n  ${noVersion}`, { code: 'M4', url: 'x/a.js' });
  refuses('Error', () => smap.composeAll(map, [['x/a.js', inner], [1, inner]]), 'source 1 has two maps');
  for (const source of [0.5, NaN, null, undefined, false, {}]) {
    refuses('TypeError', () => smap.composeAll(map, [[source, inner]]), /`source` must be a whole number/);
  }
  for (const bad of [7, null, undefined]) refuses('TypeError', () => smap.composeAll(map, { 'x/a.js': bad }), /a map must be a text/);
  for (const bad of [7, null, 'x/a.js']) refuses('TypeError', () => smap.composeAll(map, bad), /`inners` must be/);
  for (const bad of [7, outer, null, undefined]) refuses('TypeError', () => smap.composeAll(bad), /a TraceMap is wanted/);
  for (const bad of [7, null, 'a.js', {}]) refuses('TypeError', () => smap.composeAll(map, {}, { load: bad }), /`load` must be a function/);
  for (const bad of [7, null, 'yes']) {
    refuses('TypeError', () => smap.composeAll(map, {}, { prune: bad }), /`prune`/);
    refuses('TypeError', () => smap.composeAll(map, {}, { noContent: bad }), /`noContent`/);
  }
  // Each name is asked for once, and no source for the map of one that leads to it.
  const asked = [];
  const maps = { 'x/a.js': inner, 's.ts': '{"version":3,"sources":["x/a.js"],"names":[],"mappings":"AAAA"}' };
  const load = (name) => {
    asked.push(name);
    return maps[name];
  };
  same(sources(smap.composeAll(map, {}, { load })), allOf('s.ts', 's.ts', 'x/a.js', 'x/a.js'));
  same(asked, ['x/a.js', 'https://e.test/y/b.js', 's.ts']);
  same(sources(smap.composeAll(map, {}, { load: (name) => (name === 'x/a.js' ? second : null) })), allOf('s.ts', 's.ts'));
  const only = { load: (name) => (name === 's.ts' ? inner : null) };
  same(sources(smap.composeAll(map, { 'x/a.js': inner }, only)), allOf('s.ts', 's.ts', '../s.ts', '../s.ts'));
  refuses('Refused', () => smap.composeAll(map, {}, { load: () => '[]' }), `refused: x/a.js: M3 NotObject\n  ${noObject}`, { code: 'M3', url: 'x/a.js' });
  refuses('RangeError', () => smap.composeAll(map, {}, { load: (name) => { throw new RangeError(name); } }), 'x/a.js');
  refuses('TypeError', () => smap.composeAll(map, {}, { load: () => 7 }), /a map must be a text/);
  isOpen();
  // The places of inner maps, where one map more is taken over, and none twice.
  const [places, taken] = [addon.newInners(map.inner.handle), new smap.TraceMap(inner)];
  // What is no object is refused by node itself.
  const other = (bad, words) => (bad === undefined ? /undefined/ : words);
  for (const bad of [7, undefined, {}, map.inner.handle]) {
    refuses('TypeError', () => addon.putInner(bad, 0, second.inner.handle), other(bad, /no inner maps/));
    refuses('TypeError', () => addon.nextInner(map.inner.handle, bad), other(bad, /no inner maps/));
    refuses('TypeError', () => addon.composeAll(map.inner.handle, bad, false, false, false, Buffer.alloc(0)), other(bad, /no inner maps/));
  }
  for (const bad of [7, undefined, {}, places]) {
    refuses('TypeError', () => addon.putInner(places, 0, bad), other(bad, /no map/));
    refuses('TypeError', () => addon.newInners(bad), other(bad, /no map/));
  }
  for (const bad of [-1, 0.5, 2 ** 32, '0']) refuses('TypeError', () => addon.putInner(places, bad, second.inner.handle), /whole number of 32 bits/);
  same([addon.putInner(places, 3, taken.inner.handle), addon.putInner(places, 1, taken.inner.handle)], [false, true]);
  refuses('Error', () => addon.putInner(places, 2, taken.inner.handle), 'the map is closed');
  same([addon.putInner(places, 1, second.inner.handle), addon.nextInner(map.inner.handle, places), addon.nextInner(map.inner.handle, places)], [false, 0, 2]);
  same([addon.innerName(map.inner.handle, places, 2), addon.innerName(map.inner.handle, places, 3)], ['https://e.test/y/b.js', null]);
  same([addon.nextInner(map.inner.handle, places), addon.innerName(map.inner.handle, places, 3), addon.nextInner(map.inner.handle, places)], [3, 's.ts', null]);
  addon.closeInners(places);
  refuses('Error', () => addon.nextInner(map.inner.handle, places), 'the inner maps are closed');
  isOpen();
  second.close();
  refuses('Error', () => smap.composeAll(map, [[0, second]]), 'the map is closed');
  same(sources(smap.composeAll(map)), allOf());
  map.close();
  refuses('Error', () => smap.composeAll(map), 'the map is closed');
}

function tables() {
  const url = 'https://e.test/a.min.js';
  const second = 'https://e.test/b.min.js';
  for (const [data, text, why] of [['{}', 'M4 Version', noVersion], ['[]', 'M3 NotObject', noObject]]) {
    const [explanation, code] = [`  ${why}\n`, text.slice(0, 2)];
    refuses('Refused', () => new smap.Table({ [url]: small, [second]: data }), `refused: ${second}: ${text}\n  ${why}`, { code, url: second, explanation });
    refuses('Refused', () => new smap.Table([['b.js', data], [url, small]]), `refused: b.js: ${text}\n  ${why}`, { code, url: 'b.js', explanation });
  }
  const fault = { code: 'M14', cause: 'F1', line: 0, byte: 0, section: 0, url: second };
  refuses('Refused', () => new smap.Table({ [second]: small.replace('AAAA', 'AA!A') }), /b\.min\.js: M14/, fault);
  for (const bad of ['', 'a\nb', 'async a', 'eval at a']) {
    const message = `usage: A1 BadUrl: ${JSON.stringify(bad)}`;
    refuses('Refused', () => new smap.Table({ [url]: small, [bad]: small }), message, { code: 'A1', url: bad });
  }
  refuses('Refused', () => new smap.Table([[url, small], [url, small]]), `usage: A2 Twice: "${url}"`, { code: 'A2', url });
  for (const bad of [7, null, undefined, {}]) refuses('TypeError', () => new smap.Table([[bad, small]]), /`URL` must be a text/);
  for (const bad of [7, null, undefined, 'a.js']) refuses('TypeError', () => new smap.Table(bad), /`maps` must be/);
  for (const bad of [7, null, undefined]) refuses('TypeError', () => new smap.Table({ 'a.js': bad }), /a map must be a text/);
  const table = new smap.Table({ [url]: small });
  const trace = `    at ä (${url}:1:11)\n`;
  const wanted = Buffer.from('    at ä (https://e.test/a.js:2:5)\n');
  for (const given of [trace, Buffer.from(trace), new Uint8Array(Buffer.from(trace))]) same(smap.rewrite(table, given), wanted);
  for (const bad of [7, null, undefined, [trace], {}, new Uint16Array(2)]) {
    refuses('TypeError', () => smap.rewrite(table, bad), /`trace` must be a text or a Uint8Array/);
  }
  for (const bad of [7, null, 'yes']) refuses('TypeError', () => smap.rewrite(table, trace, { hideIgnored: bad }), /`hideIgnored`/);
  for (const bad of [7, null, {}, new Map()]) refuses('TypeError', () => smap.rewrite(bad, trace), /a Table is wanted/);
  const map = new smap.TraceMap(small);
  refuses('Refused', () => new smap.Table({ 'a\nb': map }), /A1 BadUrl/);
  same(smap.originalPositionFor(map, { line: 1, column: 12 }), last);
  new smap.Table({ 'a.js': map });
  refuses('Error', () => smap.originalPositionFor(map, { line: 1, column: 12 }), 'the map is closed');
  refuses('Error', () => new smap.Table({ 'a.js': map }), 'the map is closed');
}

function loading() {
  const url = 'https://e.test/a.min.js';
  const asked = [];
  const load = (name) => {
    asked.push(name);
    return [url, 'eval at x://y'].includes(name) ? small : null;
  };
  const table = new smap.Table({ 'b.js': small }, { load });
  same(table.counts, null);
  const [frame, mapped] = [`    at f (${url}:1:11)\n`, '    at f (https://e.test/a.js:2:5)\n'];
  for (let round = 0; round < 2; round++) {
    const trace = `${frame}f@b.js:1:11\nf@c.js:1:1\nat d.js\n${frame}`;
    same(smap.rewrite(table, trace), Buffer.from(`${mapped}f@a.js:2:5\nf@c.js:1:1\nat d.js\n${mapped}`));
    same(asked, [url, 'c.js']);
  }
  same(table.counts, { lines: 5, frames: 4, mapped: 3, hidden: 0 });
  // Texts that are no URL and no path, one that is no text, and a URL that no table takes.
  const odd = Buffer.from('f@async x:1:11\nf@[native code]:1:11\nf@../../../etc/passwd:1:11\nf@x/../y.js:1:11\nf@x//y.js:1:11\nf@\xff.js:1:11\nf@eval at x://y:1:11\n', 'latin1');
  same(smap.rewrite(table, odd), odd);
  same(asked, [url, 'c.js', 'eval at x://y']);
  same(table.refusals.map(({ url: name, error }) => [name, error.message]), [['eval at x://y', 'usage: A1 BadUrl: "eval at x://y"']]);
  const paths = ['/srv/x', 'C:\\app\\x', 'c:/app/x', 'x/y.mjs', './y.cjs', 'index.android.bundle', 'app:///x'];
  smap.rewrite(table, paths.map((path) => `f@${path}:1:1\n`).join(''));
  same(asked.slice(3), paths);
  const map = new smap.TraceMap(small);
  const lending = new smap.Table({}, { load: () => map });
  same(smap.rewrite(lending, 'f@g.js:1:11'), Buffer.from('f@a.js:2:5'));
  same([String(smap.rewrite(lending, 'f@h.js:1:11')), lending.refusals[0].error.message], ['f@h.js:1:11', 'the map is closed']);
  for (const bad of [7, null, 'a.js', {}]) {
    refuses('TypeError', () => new smap.Table({}, { load: bad }), /`load` must be a function/);
    refuses('TypeError', () => new smap.Table({}, { refused: bad }), /`refused` must be a function/);
  }
}

// What a loader throws, and why its map is refused: the frames stay, and it is told once.
function refusing() {
  const asked = [];
  const load = (name) => {
    asked.push(name);
    if (name === 'stop.js') throw new RangeError(name);
    return { 'odd.js': '{}', 'seven.js': 7, 'later.js': Promise.resolve(small), 'a.min.js': small }[name];
  };
  const names = ['odd.js', 'stop.js', 'seven.js', 'later.js'];
  const why = [`refused: odd.js: M4 Version\n  ${noVersion}`, 'stop.js', 'a map must be a text, a Uint8Array or a parsed map',
    'a map must be a text, a Uint8Array or a parsed map, and not a promise of one'];
  const trace = names.map((name) => `f@${name}:1:1\n`).join('');
  const told = [];
  for (const refused of [undefined, (name, error) => told.push({ url: name, error })]) {
    const table = new smap.Table({}, { load, refused });
    for (let round = 0; round < 2; round++) same(String(smap.rewrite(table, `${trace}f@a.min.js:1:11`)), `${trace}f@a.js:2:5`);
    const reported = refused ? told : table.refusals;
    same(reported.map(({ url, error }) => [url, error.message]), names.map((name, i) => [name, why[i]]));
    same(reported.map(({ error }) => error.name), ['Refused', 'RangeError', 'TypeError', 'TypeError']);
    same([reported[0].error.code, reported[0].error.url], ['M4', 'odd.js']);
    same(asked.splice(0), [...names, 'a.min.js']);
  }
  // Not all are kept, and what the one that is told throws is thrown.
  const many = new smap.Table({}, { load: () => '{}' });
  smap.rewrite(many, Array.from({ length: 200 }, (_, i) => `f@${i}.js:1:1\n`).join(''));
  same([many.refusals.length, many.refusals[99].url], [100, '99.js']);
  const failing = new smap.Table({}, { load, refused: () => { throw new RangeError('told'); } });
  refuses('RangeError', () => smap.rewrite(failing, trace), 'told');
  refuses('TypeError', () => new smap.TraceMap(Promise.resolve(small)), /and not a promise of one$/);
  refuses('TypeError', () => smap.composeAll(new smap.TraceMap(small), {}, { load: () => Promise.resolve(small) }), /and not a promise of one$/);
}

// URLs with a query or a fragment have one map together, and keep both where they have no original. Lines and columns are those
// of `small`: 1:11 has an original, and 2:1 none.
function cutUrls() {
  const asked = [];
  const load = (name) => {
    asked.push(name);
    return name.endsWith('x.min.js') ? small : null;
  };
  const url = 'https://e.test/x.min.js';
  const pairs = [['?v=3', 1], ['?v=4', 1], ['#y?z', 1], ['?v=3', 2], ['', 1], ['?', 2]];
  const [given, wanted] = [pairs.map(([more, line]) => [`${url}${more}:${line}:11`, line]), []];
  for (const [place, line] of given) wanted.push(line === 1 ? 'https://e.test/a.js:2:5' : place);
  for (let count = 1; count <= 2 ** pairs.length; count *= 2) {
    const rows = Array.from({ length: count }, (_, i) => (i * 7) % pairs.length);
    const texts = (places, before, behind) => rows.map((row) => `${before}${places[row]}${behind}`).join('');
    const places = given.map(([place]) => place);
    const mapped = rows.filter((row) => given[row][1] === 1).length;
    const table = new smap.Table({}, { load });
    same(String(smap.rewrite(table, texts(places, 'x\n    at f (', ')\n'))), texts(wanted, 'x\n    at f (', ')\n'));
    same(table.counts, { lines: 2 * count, frames: count, mapped, hidden: 0 });
    for (const [before, behind] of [['[', '] '], ['', '\n'], ['"', '"'], ['\x1b[36m', '\x1b[0m'], ['at=', ',']]) {
      const line = texts(places, before, behind);
      same(String(smap.rewrite(table, line, { anywhere: true })), texts(wanted, before, behind));
      same([table.counts.places, table.counts.mapped], [count, mapped]);
    }
    same(asked.splice(0), [url]);
  }
  // Places that stand where one block of a long text ends and the next begins.
  const long = new smap.Table({}, { load });
  for (let length = 2 ** 20 - url.length - 12; length < 2 ** 20 + 3; length++) {
    same(String(smap.rewrite(long, `${'-'.repeat(length - 1)} ${url}?v=3:1:11`, { anywhere: true })).slice(length), 'https://e.test/a.js:2:5');
  }
  same(asked.splice(0), [url]);
  // A map that is given for the whole URL comes first, and one for the cut URL serves all.
  const other = small.replace('a.js', 'o.js');
  const both = new smap.Table({ [`${url}?v=3`]: other, [url]: small }, { load });
  const text = `f@${url}?v=3:1:11\nf@${url}?v=4:1:11\n`;
  for (const anywhere of [false, true]) {
    same(String(smap.rewrite(both, text, { anywhere })), 'f@https://e.test/o.js:2:5\nf@https://e.test/a.js:2:5\n');
  }
  same(asked, []);
  // So does one that is given, without a loader.
  same(String(smap.rewrite(new smap.Table({ [url]: small }), text)), 'f@https://e.test/a.js:2:5\n'.repeat(2));
  const hiding = new smap.Table({}, { load: () => small.replace('"names"', '"ignoreList":[0],"names"') });
  same(String(smap.rewrite(hiding, text, { hideIgnored: true })), '');
  same(hiding.counts, { lines: 2, frames: 2, mapped: 0, hidden: 2 });
}

// Texts by chance over a loader, beside a table in which each map stands under each whole URL. One map leads to its own URL. Anywhere a
// file's name with a fragment, and a path with a comma, is known by its name alone. A loader's places are all that looks like a URL, also right
// behind `_` or a digit, where a name is none: so none stands there, and there may be more of them.
function cutByChance() {
  const { chance, below } = chances;
  const own = '{"version":3,"sources":["own.js"],"names":[],"ignoreList":[0],"mappings":"AAAA,UAAU;AACA"}';
  const maps = { 'https://e.test/x.js': small, 'https://e.test/own.js': own, '/srv/y.js': small, 'z.js': small.replace('a.js', 'b\\"c'), '/z.js': small };
  const urls = Object.keys(maps).flatMap((url) => ['', '?v=1', '?v=2#z', '#', '?a=,b'].map((more) => url + more));
  const looking = urls.filter((url) => !/^z[^?]*#|,/.test(url));
  const exact = new smap.Table(urls.map((url) => [url, maps[url.split(/[?#]/)[0]]]));
  const pick = (list) => list[below(list.length)];
  const place = ({ anywhere }) => `${pick([...(anywhere ? looking : urls), 'https://e.test/no.js?v=1', 'q'])}:${1 + below(3)}:${pick([1, 5, 11, 12])}`;
  const around = [['    at f (', ')'], ['f@', ''], ['at ', ''], ['', ''], ['x', ''], ['[', '] '], ['\x1b[31m', '\x1b[0m'], ['"', '",'], ['', '7 '], ['_', ' '], [',', ';']];
  for (let round = 0; round < 600; round++) {
    const options = pick([{}, { hideIgnored: true }, { anywhere: true }]);
    let text = '';
    for (let count = below([3, 20, 200][round % 3]); count > 0; count--) {
      let [before, behind] = pick(around);
      if (options.anywhere && before === '_') before = '';
      if (options.anywhere && before === '' && /\d$/.test(text)) text += '\n';
      // A line that is a frame, whose URL is named as it stands, has no other place: so it stands alone.
      const isFrame = /@$|at /.test(before);
      if (isFrame && text !== '' && !text.endsWith('\n')) text += '\n';
      text += `${before}${place(options)}${behind}${options.anywhere && !isFrame && chance() < 0.4 ? '' : '\n'}`;
    }
    const loading = new smap.Table({}, { load: (url) => maps[url] });
    same(String(smap.rewrite(loading, text, options)), String(smap.rewrite(exact, text, options)));
    const { places } = loading.counts;
    same(loading.counts, { ...exact.counts, ...(options.anywhere && { places: Math.max(places, exact.counts.places) }) });
    loading.close();
  }
}

function anywhere() {
  const text = '{g.js:1:11} [h.js:1:11] {g.js:9:9}\n    at g.js:1:11\n';
  const wanted = Buffer.from('{a.js:2:5} [h.js:1:11] {g.js:9:9}\n    at a.js:2:5\n');
  const table = new smap.Table({ 'g.js': small });
  same(smap.rewrite(table, text, { anywhere: true }), wanted);
  same(table.counts, { lines: 2, places: 3, mapped: 2 });
  refuses('Error', () => smap.rewrite(table, text, { anywhere: true, hideIgnored: true }), /`hideIgnored` with `anywhere`/);
  for (const bad of [7, null, 'yes']) refuses('TypeError', () => smap.rewrite(table, text, { anywhere: bad }), /`anywhere`/);
  // The URLs of places are asked for, and no other text before what could be one.
  const asked = [];
  const load = (name) => {
    asked.push(name);
    return name === 'g.js' ? small : null;
  };
  const loading = new smap.Table({}, { load });
  same(smap.rewrite(loading, text, { anywhere: true }), wanted);
  same(loading.counts, { lines: 2, places: 4, mapped: 2 });
  const line = '12:30:45 x:1:2 y=/srv/b.js:1:2 {"stack":"f@app:///c.js?d=1:1:1\\n"} \x1b[1;36mhttps://e.test/e.js:1:1\x1b[0m a:7:8, (d/f.js:1:2)[native code:1:1]:3:12345678901';
  same(String(smap.rewrite(loading, line, { anywhere: true })), line);
  same(asked, ['g.js', 'h.js', '/srv/b.js', 'app:///c.js', 'https://e.test/e.js', 'd/f.js']);
  // What looks like a URL is one right behind a sign that a name could have, too.
  const [named, seen] = [new smap.Table({ 'https://e.test/e.js': small }), new smap.Table({}, { load: () => small })];
  for (const before of ['_', 'https://e.test/e.js:9:1']) {
    const place = `${before}https://e.test/e.js:1:11`;
    same(String(smap.rewrite(named, place, { anywhere: true })), place);
    same(String(smap.rewrite(seen, place, { anywhere: true })), `${before}https://e.test/a.js:2:5`);
  }
}

// No option is passed over.
function options() {
  const map = new smap.TraceMap(small);
  const table = new smap.Table({ 'b.js': small });
  const calls = [(given) => smap.composeAll(map, {}, given), (given) => new smap.Table({}, given), (given) => smap.rewrite(table, 'x', given), (given) => new smap.RewriteStream(table, given)];
  for (const call of calls) {
    for (const bad of [{ anyWhere: true }, { load: undefined, hideignored: false }, { '': 7 }]) refuses('TypeError', () => call(bad), /^`.*` is no option here: there are `/);
    for (const bad of [7, null, 'anywhere', true]) refuses('TypeError', () => call(bad), /^the options must be an object, and not /);
    for (const none of [undefined, {}, Object.create(null)]) call(none);
  }
}

function closed() {
  const map = new smap.TraceMap(small);
  same(smap.sourceContentFor(map, 'no such source'), null);
  same(smap.isIgnored(map, 'no such source'), false);
  map.close();
  map.close();
  const calls = [() => map.counts, () => map.file, () => map.names, () => map.write(), () => smap.compose(map, 0, map),
    () => smap.lookUpMany(map, new Uint32Array(2)), () => smap.sourceContentFor(map, 'a.js'), () => smap.isIgnored(map, 'a.js')];
  for (const member of ['version', 'names', 'sources', 'sourceRoot', 'sourcesContent', 'ignoreList', 'resolvedSources', 'sourceEntries']) calls.push(() => map[member]);
  for (const call of ['eachMapping', 'decodedMappings', 'encodedMappings', 'encodedMap', 'traceSegment']) calls.push(() => smap[call](map, 0, 0));
  calls.push(() => map.mappings(), () => map.bytesBySource(''), () => map.fit(''), () => new smap.TraceMap(map));
  for (const call of calls) refuses('Error', call, 'the map is closed');
  // What was begun goes on.
  const other = new smap.TraceMap(small);
  const begun = other.mappings();
  begun.next();
  other.close();
  same([...begun].length, 2);
  const dispose = Symbol.dispose || Symbol.for('nodejs.dispose');
  const disposed = new smap.TraceMap(small);
  disposed[dispose]();
  refuses('Error', () => disposed.names, 'the map is closed');
  for (const end of ['close', dispose]) {
    const table = new smap.Table({ 'b.js': small }, { load: () => small });
    same(String(smap.rewrite(table, 'f@b.js:1:11')), 'f@a.js:2:5');
    table[end]();
    table.close();
    refuses('Error', () => smap.rewrite(table, 'f@c.js:1:11'), 'the table is closed');
    same(table.counts, { lines: 1, frames: 1, mapped: 1, hidden: 0 });
  }
}

// Maps in turn, of which some are closed or collected while others are read: each answers for itself, also in the place of
// another.
async function inTurn() {
  v8.setFlagsFromString('--expose-gc');
  const collect = vm.runInNewContext('gc');
  const read = (column) => new smap.TraceMap({ version: 3, sources: [`${column}.js`], mappings: [[[column, 0, 7, column]]] });
  const [open, places] = [new Map(), new Set()];
  for (let column = 1; column <= 400; column++) {
    open.set(column, read(column));
    for (const [other, map] of open) {
      same(smap.originalPositionFor(map, { line: 1, column: other }), { source: `${other}.js`, line: 8, column: other, name: null });
      same(smap.traceSegment(map, 0, other - 1), null);
    }
    places.add(open.get(column).inner.handle.place);
    const [first] = open.keys();
    if (column % 3 === 0) open.get(first).close();
    if (open.size > 20 || column % 3 === 0) open.delete(first);
    if (column % 50 === 0) {
      collect();
      await new Promise(setImmediate);
    }
  }
  same(places.size < 200, true);
}

places();
many();
beneath();
maps();
reasons();
bases();
paths();
pathsForMaps();
halves();
members();
sourceTexts();
spellings();
ownMembers();
decodedMaps();
bytes();
fit();
pathsOfSources();
generatedPlaces();
shared();
intervals();
compositions(process.argv[2]);
composingAll();
tables();
loading();
refusing();
cutUrls();
cutByChance();
anywhere();
options();
closed();
inTurn().then(() => console.log('mistakes', reported));
