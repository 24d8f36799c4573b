'use strict';
// What few bytes may come to in node, each call in a process with little memory: node bounds.js.
const assert = require('node:assert');
const { spawnSync } = require('node:child_process');
const smap = require('smap');

const [MEGABYTES, LITTLE] = [300, 200];

let reported = 0;
const same = (got, wanted) => {
  assert.deepStrictEqual(got, wanted);
  reported += 1;
};
const refuses = (name, call, message, members = {}) => {
  assert.throws(call, { name, message, ...members });
  reported += 1;
};

// What an expression with `smap` and `given` comes to in a process of its own, or the signal by which that ended, or that it took
// more megabytes than it may.
function answered(expression, given, most = Infinity) {
  const script = `const smap = require('smap'); const given = ${JSON.stringify(given)};
    const told = (call) => { try { return call(); } catch (error) { return \`\${error.name}: \${error.message}\`; } };
    console.log(JSON.stringify([told(() => ${expression}), process.resourceUsage().maxRSS >> 10]));`;
  const { stdout, signal, status } = spawnSync(process.execPath, [`--max-old-space-size=${MEGABYTES}`], { encoding: 'utf8', input: script });
  if (status !== 0) return `ended by ${signal || status}`;
  const [answer, taken] = JSON.parse(stdout);
  return taken <= most ? answer : `took ${taken} MB`;
}

// A map whose last section begins in this line, from 0, with so many bytes more.
function farMap(line, more = 0) {
  const map = { version: 3, sources: [], names: more ? ['n'.repeat(more - 3)] : [], mappings: 'A' };
  return JSON.stringify({ version: 3, sections: [{ offset: { line, column: 0 }, map }] });
}

// A list of lines is made up to 1,000,000, or up to 16 for each byte of the map.
function lists() {
  const refused = (lines, most, bytes) => `RangeError: the map has ${lines} lines, and a list of at most ${most} is made of its ${bytes} bytes`;
  const far = farMap(67000000);
  same(far.length < 130, true);
  for (const call of ['decodedMappings', 'decodedMap']) {
    same(answered(`smap.${call}(new smap.TraceMap(given)).length`, far), refused(67000001, 1000000, far.length));
  }
  same(answered('smap.encodedMappings(new smap.TraceMap(given)).length', far), 67000001);
  const listed = 'smap.decodedMappings(new smap.TraceMap(given)).length';
  same(answered(listed, farMap(999999)), 1000000);
  same(answered(listed, farMap(1000000)), refused(1000001, 1000000, far.length - 1));
  const large = farMap(1000000, 100000);
  same(answered(listed, large), 1000001);
  same(answered(listed, farMap(16 * large.length - 1, 100000)), 16 * large.length);
  same(answered(listed, farMap(16 * large.length, 100000)), refused(16 * large.length + 1, 16 * large.length, large.length));
}

// Column 10 of line 1 comes from line 2, column 4 of a source whose name has so many bytes. So a frame `f@b.js:1:11` comes to 7
// bytes more than the name, with its end.
const named = (length, more = {}) => JSON.stringify({ version: 3, sources: ['n'.repeat(length)], mappings: 'AAAA,UACI', ...more });
const frame = 'f@b.js:1:11\n';
const long = (lines) => `refused: X5 LongOutput: ${lines} whole lines fit`;

// A trace of 960,000 bytes would come to 5.2 GB: 80,000 lines of 65,507 bytes.
function outputs() {
  const map = named(65500);
  const ways = ["new smap.Table({ 'b.js': given })", "new smap.Table({}, { load: () => given })", 'new smap.Maps({ load: () => given, maxBytes: 1e6 })'];
  for (const way of ways) {
    for (const [text, options] of [[frame, ''], [frame, 'anywhere: true, '], ['b.js?v=1:1:11 \n', 'anywhere: true, ']]) {
      if (text !== frame && way === ways[0]) continue;
      const call = `smap.rewrite(${way}, ${JSON.stringify(text)}.repeat(80000), { ${options}maxOutput: 1000000 }).length`;
      same(answered(call, map, LITTLE), `Refused: ${long(15)}`);
    }
  }
  same(answered(`smap.rewrite(${ways[0]}, ${JSON.stringify(frame)}.repeat(80000)).length`, map), `Refused: ${long(16391)}`);
}

// What comes out may have so many bytes, and none more: here 107 a line.
async function exactly() {
  const load = (url) => (url.endsWith('b.js') ? named(100) : null);
  const table = () => new smap.Table({}, { load });
  // Two URLs in turn, of whose maps one alone is kept: each line is a part.
  const parted = () => new smap.Maps({ load, maxBytes: 0 });
  const later = () => new smap.Maps({ loadAsync: async (url) => load(url), maxBytes: 0 });
  const lines = (count) => Array.from({ length: count }, (_, i) => (i % 2 ? frame : frame.replace('b.js', 'a/b.js'))).join('');
  for (const make of [table, parted]) {
    const rewrite = (count, maxOutput, options) => smap.rewrite(make(), lines(count), { maxOutput, ...options });
    for (const options of [{}, { anywhere: true }, { stripAnsi: true }]) {
      same(rewrite(10, 1070, options).length, 1070);
      refuses('Refused', () => rewrite(10, 1069, options), long(9), { code: 'X5', lines: 9 });
      refuses('Refused', () => rewrite(11, 1070, options), long(10), { code: 'X5' });
      refuses('Refused', () => rewrite(1, 0, options), long(0), { code: 'X5' });
      same(String(rewrite(0, 0, options)), '');
    }
  }
  same((await smap.rewriteAsync(later(), lines(10), { maxOutput: 1070 })).length, 1070);
  await assert.rejects(smap.rewriteAsync(later(), lines(11), { maxOutput: 1070 }), { name: 'Refused', message: long(10), code: 'X5', lines: 10 });
  // A hidden line comes to nothing.
  const ignored = new smap.Maps({ load: (url) => named(100, url === 'a/b.js' ? { ignoreList: [0] } : {}), maxBytes: 0 });
  same(smap.rewrite(ignored, lines(10), { hideIgnored: true, maxOutput: 535 }).length, 535);
  refuses('Refused', () => smap.rewrite(ignored, lines(10), { hideIgnored: true, maxOutput: 534 }), long(4));
  // A query goes, though it is longer than what comes out.
  const query = (count) => `b.js?${'v'.repeat(1900)}:1:11\n`.repeat(count);
  for (const make of [table, parted]) {
    same(smap.rewrite(make(), query(10), { anywhere: true, maxOutput: 1050 }).length, 1050);
    refuses('Refused', () => smap.rewrite(make(), query(10), { anywhere: true, maxOutput: 1049 }), long(9));
    same(smap.rewrite(make(), query(10), { maxOutput: query(10).length }).length, query(10).length);
  }
  // Of a stream each part has the bound.
  const stream = new smap.RewriteStream(table(), { maxOutput: 1070 });
  for (let i = 0; i < 5; i++) stream.write(lines(10));
  same(stream.read().length, 5350);
  const error = await new Promise((done) => stream.on('error', done).write(lines(11)));
  same([error.name, error.message, stream.read()], ['Refused', long(10), null]);
  await inside();
}

// A part of a stream that begins inside a line: how many lines fit of what comes of it, and not of all. A frame's source has 300,000 bytes,
// and of a long line that is searched for places the last bytes wait for the next part.
async function inside() {
  const map = (source, more = {}) => JSON.stringify({ version: 3, sources: [source], names: [], mappings: 'AAAA', ...more });
  const wide = new smap.Table({ 'a.js': map(`${'n'.repeat(299997)}.ts`), 'i.js': map('i.ts', { ignoreList: [0] }) });
  const frames = (name, count) => `    at f (${name}:1:1)\n`.repeat(count);
  const [open, rest, hidden] = ['x '.repeat(150000), `de\nfg\n${frames('a.js', 2)}`, frames('i.js', 9)];
  const [anywhere, hideIgnored] = [{ anywhere: true }, { hideIgnored: true }];
  for (const [options, parts, wanted] of [
    [{}, [open, rest], 3], [{}, [`q\n${open}`, rest], 3], [{}, [`${open}\n`, rest], 3], [{}, ['q\n', rest], 3], [{}, [open, 'de', rest], 3],
    [{}, [open, frames('a.js', 9)], 2], [anywhere, [open, rest], 2], [anywhere, [`q\n${open}`, rest], 2], [anywhere, ['q\n', rest], 3],
    [hideIgnored, [hidden, rest], 3], [hideIgnored, [hidden + open, rest], 3],
  ]) {
    const stream = new smap.RewriteStream(wide, { ...options, maxOutput: 320000 }).on('data', () => {});
    const refused = new Promise((done) => stream.on('error', done));
    for (const part of parts) stream.write(part);
    same([options, parts.map((part) => part.length), (await refused).lines], [options, parts.map((part) => part.length), wanted]);
  }
}

// Names of 8,192 sources have 32,770 bytes each, 268 MB together: a root of 32,768 bytes, `/` and one byte more.
function names() {
  const map = { version: 3, sourceRoot: 'r'.repeat(32768), sources: Array(8192).fill('a'), names: [], mappings: 'AAAA' };
  const text = JSON.stringify(map);
  same(text.length < 66000, true);
  const refused = (url = '') => `Refused: refused: ${url}M18 LongNames`;
  const maxNames = 'maxNames: 1000000';
  same(answered(`new smap.TraceMap(given, null, { ${maxNames} }).counts`, text, LITTLE), refused());
  same(answered(`new smap.AnyMap(given, null, { interval: 1, ${maxNames} }).counts`, text, LITTLE), refused());
  for (const url of ['dist/b.js', 'https://e.test/b.js']) {
    same(answered(`new smap.TraceMap(given, ${JSON.stringify(url)}, { ${maxNames} }).counts`, text, LITTLE), refused(`${url}: `));
  }
  same(answered(`new smap.Table({ 'b.js': given }, { ${maxNames} }).counts`, text, LITTLE), refused('b.js: '));
  const told = (way) => `(() => { const all = new smap.${way}; smap.rewrite(all, 'f@b.js:1:1'); return all.refusals.map(({ error }) => String(error)); })()`;
  same(answered(told(`Table({}, { load: () => given, ${maxNames} })`), text, LITTLE), [refused('b.js: ')]);
  same(answered(told(`Maps({ load: () => given, maxBytes: 1e9, ${maxNames} })`), text, LITTLE), [refused('b.js: ')]);
  same(answered('new smap.TraceMap(given).counts', text, LITTLE), refused());
  const few = { ...map, sourceRoot: 'r', sources: ['a', 'bc'] };
  same(new smap.TraceMap(few, null, { maxNames: 7 }).sourceAt(1), 'r/bc');
  refuses('Refused', () => new smap.TraceMap(few, null, { maxNames: 6 }), 'refused: M18 LongNames', { code: 'M18' });
  same(new smap.TraceMap({ ...few, sources: [], mappings: '' }, null, { maxNames: 0 }).counts.sources, 0);
}

// No bound is passed over.
function mistakes() {
  const [map, table] = [named(1), new smap.Table({ 'b.js': named(1) })];
  const calls = {
    maxOutput: [(maxOutput) => smap.rewrite(table, frame, { maxOutput }), (maxOutput) => new smap.RewriteStream(table, { maxOutput })],
    maxNames: [
      (maxNames) => new smap.TraceMap(map, null, { maxNames }), (maxNames) => new smap.Table({}, { maxNames }),
      (maxNames) => new smap.Maps({ load: () => null, maxBytes: 1, maxNames }), (maxNames) => smap.Maps.folder('x/', '.', { maxBytes: 1, maxNames }),
    ],
  };
  for (const [name, some] of Object.entries(calls)) {
    for (const call of some) {
      for (const bad of [0.5, NaN, Infinity, '7', null, true, 7n, {}]) refuses('TypeError', () => call(bad), new RegExp(`^\`${name}\` must be a whole number`));
      for (const bad of [-1, 2 ** 53]) refuses('RangeError', () => call(bad), `\`${name}\` must be 0 to 9007199254740991, and not ${bad}`);
      for (const good of [1000, 2 ** 53 - 1, undefined]) call(good);
    }
  }
  refuses('TypeError', () => new smap.TraceMap(map, null, { most: 7 }), /^`most` is no option here: there are `interval`, `maxNames`/);
  refuses('TypeError', () => new smap.TraceMap(map, null, { interval: '64' }), /^`interval` must be a whole number/);
}

lists();
outputs();
names();
mistakes();
exactly().then(() => console.log('bounds', reported));
