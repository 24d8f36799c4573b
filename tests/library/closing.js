'use strict';
// Maps that are closed, and memory that is taken away, in the middle of a call in node: node --expose-gc closing.js. An addon
// that is built with the address sanitizer says so where it reads or writes what is no more there.
const assert = require('node:assert');
const path = require('node:path');
const { MessageChannel } = require('node:worker_threads');
const smap = require('smap');
const addon = require(path.join(path.dirname(require.resolve('smap')), 'addon.js'));

// Line 1 has a mapping at column 10, of line 2, column 4 of its source, with a name.
const LINES = 200;
const contentLine = (line) => `${line} ${'x'.repeat(3000)}`;
const content = Array.from({ length: LINES }, (_, i) => contentLine(i + 1)).join('\n');
const read = (source = 'a.js') => new smap.TraceMap({ version: 3, sources: [source], sourcesContent: [content], names: ['n'], mappings: 'AAAA,UACIA' });
const found = (source = 'a.js') => ({ source, line: 2, column: 4, name: 'n' });
const look = (map) => smap.originalPositionFor(map, { line: 1, column: 12 });
const counts = { sections: 1, sources: 1, names: 1, segments: 2, lines: 1, checkpoints: 1 };

let reported = 0;
const same = (got, wanted) => {
  assert.deepStrictEqual(got, wanted);
  reported += 1;
};
const refuses = (name, call, message) => {
  assert.throws(call, { name, message });
  reported += 1;
};

// Calls while a setter of a prototype by one of these names does something; says whether it was called.
function withSetters(prototype, names, act, call) {
  let isCalled = false;
  const set = () => {
    isCalled = true;
    act();
    gc();
  };
  names.forEach((name) => Object.defineProperty(prototype, name, { configurable: true, set, get: () => undefined }));
  try {
    return [call(), isCalled];
  } finally {
    names.forEach((name) => delete prototype[name]);
  }
}

// The same, of each name that a list has not.
function withProxy(act, call) {
  let isCalled = false;
  const set = () => {
    isCalled = true;
    act();
    gc();
    return true;
  };
  const usual = Object.getPrototypeOf(Array.prototype);
  Object.setPrototypeOf(Array.prototype, new Proxy(usual, { set }));
  try {
    return [call(), isCalled];
  } finally {
    Object.setPrototypeOf(Array.prototype, usual);
  }
}

// A setter closes the map or the table of which something is handed out.
function setters() {
  const numbers = Array.from({ length: 60 }, (_, i) => String(i));
  const linesOf = (from, count) => Array.from({ length: count }, (_, i) => contentLine(from + i));
  for (const name of [...numbers.slice(0, 42), null]) {
    const map = read();
    const { handle } = map.inner;
    const call = () => addon.sourceLines(handle, 0, 99, 20, 20);
    const [lines, isCalled] = name === null ? withProxy(() => map.close(), call) : withSetters(Array.prototype, [name], () => map.close(), call);
    same([...lines], [20, ...linesOf(80, 41)]);
    same([isCalled, look(map)], [false, found()]);
    map.close();
  }
  const table = new smap.Table({ 'b.js': read() });
  const place = { ...found(), ignored: false, index: 0, lastColumn: Infinity };
  same(withSetters(Array.prototype, numbers, () => table.close(), () => table.lookUp('b.js', 1, 12)), [place, false]);
  same(withSetters(Object.prototype, Object.keys(place), () => table.close(), () => table.lookUp('b.js', 1, 12)), [place, false]);
  const map = read();
  same(withSetters(Object.prototype, Object.keys(counts), () => map.close(), () => map.counts), [counts, false]);
  // The place of a map is its own: without it the map at the first place would answer.
  const [other, isCalled] = withSetters(Object.prototype, ['place'], () => map.close(), () => read('other.js'));
  same([look(other), look(map), isCalled], [found('other.js'), found(), false]);
}

// Where the texts of an answer are made, a setter looks up something else.
function among() {
  const [map, other] = [read(), new smap.TraceMap('{"version":3,"sources":["o.js"],"names":["m"],"mappings":"AASSA"}')];
  const act = () => smap.originalPositionFor(other, { line: 1, column: 0 });
  same(act(), { source: 'o.js', line: 10, column: 9, name: 'm' });
  const place = { ...found(undefined), name: undefined };
  same(withSetters(Array.prototype, ['0'], act, () => look(map)), [{ ...place, source: undefined }, true]);
  same(withSetters(Array.prototype, ['0'], act, () => map.placeAt(1, 12)), [{ ...place, source: undefined, ignored: false, index: 0, lastColumn: Infinity }, true]);
}

// The memory that a look-up is asked in cannot be taken away.
function room() {
  const map = read();
  const { buffer } = addon.room;
  const { port1, port2 } = new MessageChannel();
  const ways = [() => structuredClone(buffer, { transfer: [buffer] }), () => port1.postMessage(buffer, [buffer]), () => buffer.transfer(), () => buffer.resize(0)];
  for (const way of ways) {
    let isTaken = true;
    try {
      way();
    } catch {
      isTaken = false;
    }
    for (let i = 0; i < 3; i++) gc();
    same([look(map), isTaken, addon.room.length], [found(), false, 13]);
    same(smap.generatedPositionFor(map, { source: 'a.js', line: 2, column: 4 }), { line: 1, column: 10 });
    same(map.placeAt(1, 12), { ...found(), ignored: false, index: 0, lastColumn: Infinity });
  }
  port1.close();
  port2.close();
  const shared = new Uint32Array(new SharedArrayBuffer(8));
  shared.set([1, 12]);
  same([...smap.lookUpMany(map, shared)], [2, 10, 0, 2, 4, 1, 0]);
}

// Arrays whose memory was taken away have nothing in them.
function detached() {
  const map = read();
  const { handle } = map.inner;
  const gone = (array) => {
    structuredClone(array.buffer, { transfer: [array.buffer] });
    gc();
    return array;
  };
  const own = (length) => Buffer.from(new ArrayBuffer(length));
  const [bytes, base] = [() => gone(own(1000)), Buffer.alloc(0)];
  const numbers = () => gone(new Float64Array(16));
  same([...addon.lookUpMany(handle, gone(new Uint32Array(2)), new Uint32Array(0))], []);
  refuses('TypeError', () => addon.lookUpMany(handle, Uint32Array.of(1, 12), gone(new Uint32Array(7))), /lengths/);
  refuses('TypeError', () => addon.read(own(1), base, false, 64, 0, numbers()), /Float64Array/);
  refuses('TypeError', () => addon.fit(handle, own(1), numbers()), /Float64Array/);
  refuses('TypeError', () => addon.refusalExplain(own(1), numbers(), new Float64Array(4)), /Float64Array/);
  same([...addon.locations(bytes(), false), ...addon.locations(bytes(), true)], []);
  refuses('TypeError', () => addon.encode(new Uint32Array(8), numbers()), /Float64Array/);
  refuses('TypeError', () => addon.encode(new Uint32Array(new SharedArrayBuffer(32)), new Float64Array(2)), /shared/);
  same(String(addon.encode(gone(new Uint32Array(8)), new Float64Array(2))), '');
  refuses('Refused', () => new smap.TraceMap(bytes()), /M2 NotJson/);
  same(map.bytesBySource(bytes()), { sources: [0], unmapped: 0 });
  same([...addon.members(bytes(), 0)], []);
  same([addon.outline(bytes(), new Float64Array(1)), addon.outline(Buffer.from([0xef]), new Float64Array(1))], [null, null]);
  refuses('TypeError', () => addon.outline(Buffer.from('{"version":3}'), numbers()), /Float64Array/);
  const last = new Float64Array(1);
  same([addon.listMappings(handle, gone(new Uint32Array(8)), last), ...last, addon.nextMappings(new Uint32Array(8))], [0, 0, 0]);
  refuses('TypeError', () => addon.listMappings(handle, new Uint32Array(8), numbers()), /Float64Array/);
  const table = new smap.Table({ 'b.js': read() });
  const rewriting = addon.newRewriting(false, false, false, false, 0);
  same(addon.give(rewriting, bytes(), 0, true), true);
  refuses('TypeError', () => addon.run(rewriting, table.inner.handle, numbers()), /Float64Array/);
  refuses('TypeError', () => addon.tableCounts(table.inner.handle, numbers()), /Float64Array/);
  same([addon.run(rewriting, table.inner.handle, new Float64Array(4)), String(addon.takeText(rewriting))], [null, '']);
  refuses('Error', () => addon.takeText(rewriting), 'the rewriting is closed');
  same([String(smap.rewrite(table, bytes())), String(addon.stripped(bytes()))], ['', '']);
  const array = gone(new Uint8Array(1000));
  for (const call of [() => new smap.TraceMap(array), () => map.fit(array), () => smap.rewrite(table, array)]) refuses('TypeError', call, /detached/);
}

// What a call of the user's does in the middle of a call here: it closes what is in use, or takes what is read away.
function inTheMiddle() {
  const outer = read('x.js');
  const closing = () => {
    outer.close();
    gc();
    return read();
  };
  refuses('Error', () => smap.composeAll(outer, {}, { load: closing }), 'the map is closed');
  const table = new smap.Table({}, { load: () => (table.close(), gc(), read()) });
  const told = table.refusals;
  refuses('Error', () => smap.rewrite(table, 'f@b.js:1:11\n'.repeat(9)), 'the table is closed');
  same(told.map(({ error }) => error.message), ['the table is closed']);
  const trace = new Uint8Array(Buffer.from('f@c.js:1:11\n'.repeat(9)));
  const taking = new smap.Table({}, { load: () => (structuredClone(trace.buffer, { transfer: [trace.buffer] }), gc(), read()) });
  same(String(smap.rewrite(taking, trace)), 'f@a.js:2:5\n'.repeat(9));
  const text = new Uint8Array(Buffer.from(JSON.stringify(read())));
  const takingText = () => {
    structuredClone(text.buffer, { transfer: [text.buffer] });
    gc();
    return 'https://e.test/';
  };
  const url = Object.defineProperty(new URL('https://e.test/'), 'href', { get: takingText });
  refuses('Refused', () => new smap.TraceMap(text, url), /M2 NotJson/);
  const maps = new smap.Maps({ load: () => (maps.close(), gc(), read()), maxBytes: 10 });
  same(String(smap.rewrite(maps, 'f@b.js:1:11\n')), 'f@a.js:2:5\n');
}

// Mappings of which a piece was handed out, of a map that is closed then, or of which no more is asked.
function inPieces() {
  const [map, other] = [read(), new smap.TraceMap({ version: 3, sources: [], names: [], mappings: '' })];
  const piece = new Uint32Array(9);
  const last = new Float64Array(1);
  same([addon.listMappings(map.inner.handle, piece, last), ...last, [...piece]], [8, 0, [0, 0, 2, 0, 0, 0, 0, 0, 0]]);
  map.close();
  same([addon.nextMappings(piece), [...piece], addon.nextMappings(piece)], [8, [0, 10, 2, 0, 1, 4, 1, 0, 0], 0]);
  const begun = addon.listMappings(read().inner.handle, piece, last);
  same([begun, addon.listMappings(other.inner.handle, piece, last), ...last, addon.nextMappings(piece)], [8, 0, -1, 0]);
}

// Maps that nothing names but the call.
function collected() {
  for (let round = 0; round < 60; round++) {
    gc();
    same(smap.generatedPositionFor(read(), { source: 'a.js', line: 2, column: 4 }), { line: 1, column: 10 });
    same(smap.allGeneratedPositionsFor(read(), { source: 'a.js', line: 2, column: 4 }), [{ line: 1, column: 10 }]);
    same([look(read()), smap.traceSegment(read(), 0, 12)], [found(), [10, 0, 1, 4, 0]]);
  }
}

setters();
among();
room();
detached();
inPieces();
inTheMiddle();
collected();
console.log('closing', reported);
