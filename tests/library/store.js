'use strict';
// Maps and what is kept of URLs in node: node store.js [RUNS]. First each thing that node had wrong; then, RUNS times, or 100,000 if that is
// not given, steps by chance beside a model of the store, with loaders that fail and promises that come late.
const assert = require('node:assert');
const fs = require('node:fs');
const os = require('node:os');
const path = require('node:path');
const { Maps, RewriteStream, Table, TraceMap, frameUrls, generatedPositionFor, rewrite, rewriteAsync } = require('smap');
const { restAfter } = require(path.join(path.dirname(require.resolve('smap')), 'store.js'));
const { below } = require('../vectors/chance.js').chanceFrom(7);

let reported = 0;
const same = (what, got, wanted) => {
  assert.deepStrictEqual(got, wanted, what);
  reported += 1;
};

const textOf = (source, more = {}) => JSON.stringify({ version: 3, sources: [source], names: [], mappings: 'AAAA', ...more });
const frame = (url) => `    at f (${url}:1:1)\n`;
const sourceOf = (maps, url) => {
  const place = maps.lookUp(url, 1, 0);
  return place && place.source;
};
const ticks = (count = 1) => new Promise((resolve) => (count ? setImmediate(() => resolve(ticks(count - 1))) : resolve()));
const pause = (milliseconds) => new Promise((resolve) => setTimeout(resolve, milliseconds));
const throwing = () => {
  throw new Error('no');
};
// A test of times, again where the machine is too slow for it.
const patiently = async (test) => {
  for (let times = 1; ; times += 1) {
    try {
      return await test();
    } catch (error) {
      if (times === 5) throw error;
    }
  }
};

// 1. What is looked up before it came is not remembered as none, and is found once it is there.
async function late() {
  const maps = new Maps({ loadAsync: async () => textOf('a.ts'), maxBytes: 1e6 });
  for (const call of [() => sourceOf(maps, 'a.js'), () => maps.get('a.js')]) assert.throws(call, /`load` is wanted/);
  same('a look-up before', [maps.has('a.js'), maps.size], [false, 0]);
  same('a trace after it', String(await rewriteAsync(maps, frame('a.js'))), frame('a.ts'));
  const others = new Maps({ loadAsync: async () => textOf('a.ts'), maxBytes: 1e6 });
  assert.throws(() => sourceOf(others, 'a.js'), /`load` is wanted/);
  await others.load(['a.js']);
  same('a map that came', sourceOf(others, 'a.js'), 'a.ts');
}

// 2. The map that is added last answers, in look-ups and in rewriting, and of a text that was named before.
function replaced() {
  for (const maps of [new Maps({ load: () => null, maxBytes: 1e6 }), new Maps({ load: () => textOf('old.ts'), maxBytes: 1e6 })]) {
    for (const options of [{}, { anywhere: true }]) {
      rewrite(maps, frame('a.js'), options);
      for (const source of ['1.ts', '2.ts']) {
        maps.add('a.js', textOf(source));
        same('what is added', [String(rewrite(maps, frame('a.js'), options)), sourceOf(maps, 'a.js')], [frame(source), source]);
      }
    }
  }
}

// 3. A frame with a query has its map, and a map that is missing or refused leaves its own frames alone.
function queries() {
  const urls = frameUrls(['a.js?v=1', 'b.js?v=1', 'c.js#x', 'd.js?', 'a.js#y'].map(frame).join(''));
  same('the URLs', urls, ['a.js', 'b.js', 'c.js', 'd.js']);
  const given = { 'a.js': textOf('a.ts'), 'b.js': null, 'c.js': '{}' };
  same('of a table', String(rewrite(new Table({ 'a.js': given['a.js'] }), frame('a.js?v=1'))), frame('a.ts'));
  const maps = new Maps({ load: (url) => (url === 'd.js' ? throwing() : given[url]), maxBytes: 1e6 });
  same('a trace', String(rewrite(maps, urls.map((url) => frame(`${url}?q`)).join(''))), frame('a.ts') + ['b.js?q', 'c.js?q', 'd.js?q'].map(frame).join(''));
  same('what is told', maps.refusals.map(({ url }) => url), ['c.js', 'd.js']);
}

// 4. What failed is asked for again after its time, twice as long after each failure in a row; what is not there, if that is wanted; and to
// discard it throws out no map.
async function failing() {
  const asked = [];
  const there = new Map([['b.js', textOf('b.ts')]]);
  const load = (url) => {
    asked.push(url);
    return there.has(url) ? there.get(url) : url === 'none.js' ? null : throwing();
  };
  const maps = new Maps({ load, maxBytes: 1e6, retryAfter: 0.05, noneFor: 0.05 });
  const both = frame('a.js') + frame('b.js') + frame('none.js');
  for (let i = 0; i < 3; i += 1) same('what is there', String(rewrite(maps, both)), both.replace('b.js', 'b.ts'));
  same('each once', asked.splice(0), ['a.js', 'b.js', 'none.js']);
  await pause(60);
  same('again', [sourceOf(maps, 'a.js'), sourceOf(maps, 'none.js'), asked.splice(0)], [null, null, ['a.js', 'none.js']]);
  await pause(60);
  same('twice as long', [sourceOf(maps, 'a.js'), sourceOf(maps, 'none.js'), asked.splice(0)], [null, null, ['none.js']]);
  await pause(50);
  there.set('a.js', textOf('a.ts')).set('none.js', textOf('none.ts'));
  same('when it came', [sourceOf(maps, 'a.js'), sourceOf(maps, 'b.js'), asked.splice(0)], ['a.ts', 'b.ts', ['a.js']]);
  await pause(60);
  same('what came late', String(rewrite(maps, both)), both.replace(/js/g, 'ts'));
  asked.length = 0;
  maps.discard('none.js');
  same('what is discarded', [String(rewrite(maps, both)), asked], [both.replace(/js/g, 'ts'), ['none.js']]);
  for (const bad of [-1, NaN, '7', null]) assert.throws(() => new Maps({ load, maxBytes: 1, retryAfter: bad }), /`retryAfter` must be a number of seconds/);
  const [often, added] = [[], new Maps({ load: (url) => (often.push(url), throwing()), maxBytes: 0, retryAfter: 0.05 })];
  for (let times = 0; times < 2; times += 1, await pause(60)) sourceOf(added, 'a.js');
  for (const name of ['a', 'b']) added.add(`${name}.js`, textOf(`${name}.ts`));
  for (let times = 0; times < 2; times += 1, await pause(60)) sourceOf(added, 'a.js');
  same('the first failure in a row after a map was added', often.length, 4);
  same('up to ten minutes', [...Array(7).keys()].map((times) => restAfter(30000, times) / 1000), [30, 60, 120, 240, 480, 600, 600]);
  same('what is longer', [restAfter(1e6, 0), restAfter(1e6, 9), restAfter(30000, 5000), restAfter(0, 9), restAfter(null, 9)], [1e6, 1e6, 600000, 0, null]);
  const forever = new Maps({ load: throwing, maxBytes: 1e6, retryAfter: Infinity });
  sourceOf(forever, 'a.js');
  same('for ever', [sourceOf(forever, 'a.js'), forever.refusals.length], [null, 1]);
}

// 5. Each map is read once, a text is passed over once, and both bounds are one.
function once() {
  const text = Array.from({ length: 16000 }, (_, i) => frame(`${'ab'[i % 2]}.js`)).join('');
  for (const [maxBytes, loads] of [[1e6, 2], [0, 16000]]) {
    let asked = 0;
    const maps = new Maps({ load: () => textOf(`${(asked += 1)}.ts`), maxBytes });
    same('lines', String(rewrite(maps, text)).split('\n').length, 16001);
    same('how often', [asked, maps.size], [loads, maxBytes ? 2 : 1]);
  }
}

// 6. All that wait for one URL are one load; others do not wait for it, streams wait, too, and the map of the caller stays open.
async function together() {
  let [asked, now, most] = [[], 0, 0];
  const loadAsync = async (url) => {
    asked.push(url);
    most = Math.max(most, (now += 1));
    await pause(url === 'slow.js' ? 100 : 5);
    now -= 1;
    return url === 'none.js' ? null : textOf(`${url.slice(0, -3)}.ts`);
  };
  const maps = new Maps({ loadAsync, maxBytes: 1e6 });
  const all = Array.from({ length: 50 }, (_, i) => (i % 5 ? rewriteAsync(maps, frame('a.js')) : maps.load(['a.js'])));
  await Promise.all(all);
  same('50 for one', asked.splice(0), ['a.js']);
  const order = [];
  const slow = rewriteAsync(maps, frame('slow.js')).then((text) => order.push(String(text)));
  await rewriteAsync(maps, frame('b.js')).then((text) => order.push(String(text)));
  same('beside a slow one', [sourceOf(maps, 'a.js'), await slow, order], ['a.ts', 2, [frame('b.ts'), frame('slow.ts')]]);
  asked.length = most = 0;
  const few = new Maps({ loadAsync, maxBytes: 1e6, atOnce: 3 });
  const names = [...'cdefghij'].map((name) => `${name}.js`);
  same('three at once', [String(await rewriteAsync(few, names.map(frame).join(''))), most, asked], [names.map(frame).join('').replace(/js/g, 'ts'), 3, names]);

  const parts = [];
  const stream = new RewriteStream(new Maps({ loadAsync, maxBytes: 1e6 }), { stripAnsi: true });
  stream.on('data', (part) => parts.push(part));
  for (const piece of ['    at f (\x1b[1mk.j', `s:1:1)\n${frame('none.js')}`, 'rest', `\n${frame('l.js')}`, frame('k.js').slice(0, -1)]) stream.write(piece);
  await new Promise((resolve, reject) => stream.on('end', resolve).on('error', reject).end());
  same('a stream', parts.join(''), `${frame('k.ts')}${frame('none.js')}rest\n${frame('l.ts')}${frame('k.ts').slice(0, -1)}`);
  same('its counts', stream.counts, { lines: 5, frames: 4, mapped: 3, hidden: 0 });

  const own = new TraceMap(textOf('own.ts'));
  const alone = new Maps({ load: (url) => textOf(url), maxBytes: 0 });
  alone.add('own.js', own);
  same('the very map', alone.get('own.js') === own, true);
  sourceOf(alone, 'other.js');
  same('one that is dropped', [own.placeAt(1, 0).source, alone.has('own.js')], ['own.ts', false]);
  const counting = new Maps({ load: () => textOf('a.ts'), maxBytes: 1e6 });
  const map = counting.get('a.js');
  const before = counting.nbytes;
  same('where it is', generatedPositionFor(map, { source: 'a.ts', line: 1, column: 0 }), { line: 1, column: 0 });
  same('what it counts for', [counting.get('a.js') === map, counting.nbytes - before, map.nbytes], [true, 40, before - 132 + 40]);
  rewrite(counting, frame('b.js'));
  same('how many are kept', counting.size, 2);
}

// A URL that has half of a pair of units has no map, and none is asked for.
function halves() {
  const maps = new Maps({ load: throwing, maxBytes: 1e6 });
  const url = 'https://e.test/\ud800.js';
  same('half of a pair', [sourceOf(maps, url), sourceOf(maps, url), maps.get(url), maps.context(url, 0, 1), maps.refusals], [null, null, null, null, []]);
  maps.discard(url);
  assert.throws(() => maps.add(url, textOf('a.ts')), /half of a surrogate pair/);
  maps.add('https://e.test/\ufffd.js', textOf('a.ts'));
  same('beside what stands for it', [sourceOf(maps, url), sourceOf(maps, 'https://e.test/\ufffd.js')], [null, 'https://e.test/a.ts']);
}

// A loader that is asked within its own call, one that discards and closes, and maps that are added while they are asked for.
async function within() {
  const inner = [];
  const maps = new Maps({
    load: (url) => {
      inner.push(sourceOf(maps, url), String(rewrite(maps, frame(url) + frame('b.js'))));
      return textOf('a.ts');
    },
    maxBytes: 1e6,
  });
  maps.add('b.js', textOf('b.ts'));
  same('itself', [sourceOf(maps, 'a.js'), inner], ['a.ts', [null, frame('a.js') + frame('b.ts')]]);
  const adding = new Maps({ load: (url) => (adding.add(url, textOf('added.ts')), textOf('old.ts')), maxBytes: 1e6 });
  same('what the loader adds', [sourceOf(adding, 'a.js'), String(rewrite(adding, frame('b.js')))], ['added.ts', frame('added.ts')]);
  let come;
  const waiting = new Maps({ loadAsync: () => new Promise((resolve) => (come = resolve)), maxBytes: 1e6 });
  const first = rewriteAsync(waiting, frame('a.js'));
  waiting.add('a.js', textOf('added.ts'));
  come(textOf('old.ts'));
  same('what is added meanwhile', [String(await first), sourceOf(waiting, 'a.js')], [frame('added.ts'), 'added.ts']);
  waiting.discard('a.js');
  const second = rewriteAsync(waiting, frame('a.js'));
  waiting.discard('a.js');
  come(textOf('old.ts'));
  await ticks(3);
  come(textOf('new.ts'));
  same('what is discarded meanwhile', String(await second), frame('new.ts'));
  for (const load of [throwing, () => '{}']) {
    const mended = new Maps({ load, maxBytes: 1e6, refused: (url) => mended.add(url, textOf('mended.ts')) });
    same('what is added where the loader failed', [String(rewrite(mended, frame('a.js'))), sourceOf(mended, 'a.js')], [frame('mended.ts'), 'mended.ts']);
  }
  // What was put under a URL with a query has a place of its own, for which the same URL is loaded, and not at the same time.
  const [loaded, steps] = [[], []];
  const apart = new Maps({
    loadAsync: async (asked) => {
      steps.push(loaded.push(asked));
      await ticks(2);
      steps.push(-loaded.length);
      return textOf('a.ts');
    },
    maxBytes: 1e6,
  });
  apart.add('a.js?1', textOf('own.ts'));
  apart.discard('a.js?1');
  const both = await Promise.all(['a.js', 'a.js?1'].map((each) => rewriteAsync(apart, frame(each))));
  same('one URL under two keys', [both.map(String), loaded, steps], [[frame('a.ts'), frame('a.ts')], ['a.js', 'a.js'], [1, -1, 2, -2]]);
  const closing = new Maps({ loadAsync: async () => (closing.close(), textOf('a.ts')), maxBytes: 1e6 });
  same('maps that are emptied', [String(await rewriteAsync(closing, frame('a.js'))), closing.size], [frame('a.ts'), 1]);
  closing.maxBytes = 10;
  same('another bound', [closing.maxBytes, closing.size, sourceOf(closing, 'a.js')], [10, 1, 'a.ts']);
  const told = new Maps({ loadAsync: throwing, maxBytes: 1e6, refused: throwing });
  await assert.rejects(rewriteAsync(told, frame('a.js')), /no/);
  await assert.rejects(told.load(['b.js']), /no/);
}

// A file that comes late, is replaced, is replaced by what is refused, and is removed, while it is asked for.
async function files(folder) {
  const maps = Maps.folder('https://e.test/', folder, { maxBytes: 1e6, freshFor: 0.02, noneFor: 0.02, retryAfter: 0.02 });
  const url = 'https://e.test/js/a.js?v=1';
  const file = path.join(folder, 'js/a.js.map');
  const answers = async (source) => {
    await pause(30);
    same(`a file with ${source}`, [sourceOf(maps, url), String(rewrite(maps, frame(url)))], [source, frame(source || url)]);
  };
  await answers(null);
  fs.mkdirSync(path.join(folder, 'js'));
  for (const source of ['one.ts', 'two.ts']) {
    fs.writeFileSync(file, textOf(source));
    await answers(`https://e.test/js/${source}`);
  }
  fs.writeFileSync(file, '{}');
  await answers('https://e.test/js/two.ts');
  await answers('https://e.test/js/two.ts');
  same('what is told', maps.refusals.map(({ url: asked, error }) => [asked, error.code]), [['https://e.test/js/a.js', 'M4']]);
  fs.writeFileSync(file, textOf('three.ts'));
  await answers('https://e.test/js/three.ts');
  fs.unlinkSync(file);
  await answers(null);
  fs.writeFileSync(file, textOf('four.ts'));
  await answers('https://e.test/js/four.ts');
}

// A map of many bytes is read beside node, and comes to what another one comes to.
async function large() {
  const content = 'x\ud83d\ude00"\\\n'.repeat(300000);
  const text = textOf('a.ts', { sourceRoot: '../r', sourcesContent: [content, null], sources: ['a.ts', 'b.ts'], ignoreList: [1], mappings: ';;AAAA;;;' });
  const wanted = new TraceMap(text, 'https://e.test/d/a.js');
  const bytes = Buffer.from(text);
  for (const given of [text, bytes, new Uint8Array(new SharedArrayBuffer(bytes.length)), `)]}'\n${text}`, Buffer.concat([Buffer.of(0xef, 0xbb, 0xbf), bytes])]) {
    if (!Buffer.isBuffer(given) && typeof given !== 'string') given.set(bytes);
    const maps = new Maps({ loadAsync: async () => given, maxBytes: 1e9 });
    await maps.load(['https://e.test/d/a.js']);
    const map = maps.get('https://e.test/d/a.js');
    same('a large map', [map.toJSON(), map.resolvedSources, map.counts, maps.refusals], [wanted.toJSON(), wanted.resolvedSources, wanted.counts, []]);
  }
  const paths = new Maps({ loadAsync: async () => text, maxBytes: 1e9, paths: true });
  await paths.load(['/srv/dist/a.js', 'dist/a.js']);
  same('by its path', ['/srv/dist/a.js', 'dist/a.js'].map((url) => paths.get(url).resolvedSources[0]), ['/srv/r/a.ts', 'r/a.ts']);
  const faulty = text.replace(';;AAAA', ';;AACA,ECA');
  for (const [given, message] of [[faulty, /^refused: a\.js: M14 .*\n  segment/s], [`${text.slice(0, -3)}\ud800"}`, /half of a surrogate pair/], ['7'.repeat(2e6), /M/]]) {
    const maps = new Maps({ loadAsync: async () => given, maxBytes: 1e9 });
    await maps.load(['a.js']);
    same('a large one that is refused', [maps.refusals.length, message.test(maps.refusals[0].error.message)], [1, true]);
    if (given !== faulty) continue;
    const synchronous = new Maps({ load: () => given, maxBytes: 1e9 });
    sourceOf(synchronous, 'a.js');
    same('as another one', { ...maps.refusals[0].error, message: maps.refusals[0].error.message }, { ...synchronous.refusals[0].error, message: synchronous.refusals[0].error.message });
  }
  const few = new Maps({ loadAsync: async () => text, maxBytes: 1e9, maxNames: 3 });
  await few.load(['a.js']);
  same('names', few.refusals[0].error.code, 'M18');
}

// A map of 28 MB holds the loop for no more than 20 milliseconds of the processor at once, where the system says how long that was.
async function beside() {
  if (!fs.existsSync('/proc/thread-self/schedstat')) return;
  const spent = () => Number(fs.readFileSync('/proc/thread-self/schedstat', 'utf8').split(' ')[0]) / 1e6;
  const text = textOf('a.ts', { sourcesContent: ['x\n'.repeat(4e6)], mappings: 'AAAA,CAAC,EAAE,GAAG;'.repeat(800000) });
  const bytes = Buffer.from(text);
  // A text that was put together is made one when it is first read, for which the loader is held.
  for (const given of [bytes.toString(), bytes]) {
    let [most, last, isOver] = [0, spent(), false];
    const tick = () => {
      most = Math.max(most, spent() - last);
      last = spent();
      if (!isOver) setImmediate(tick);
    };
    const maps = new Maps({ loadAsync: async () => given, maxBytes: 1e9 });
    tick();
    same('a trace over 28 MB', String(await rewriteAsync(maps, frame('a.js'))), frame('a.ts'));
    await ticks(2);
    isOver = true;
    assert.ok(text.length > 28e6 && most < 20, `held for ${most} ms`);
  }
}

// ---- the model: what is known of each URL, by vectors/store.py

const cut = (url) => url.split(/[?#]/, 1)[0];

class Model {
  constructor(most) {
    this.most = { map: most, none: Math.floor(most / 16) };
    this.known = new Map();
    this.order = { map: [], none: [] };
    this.own = new Set();
    this.areAllOwn = false;
  }

  counted(kind) {
    return this.order[kind].reduce((sum, url) => sum + this.known.get(url).count, 0);
  }

  key(url) {
    return this.areAllOwn || this.own.has(url) ? url : cut(url);
  }

  put(url, kind, what, size) {
    if (cut(url) !== url && !this.areAllOwn) {
      const own = new Set([...this.own, url]);
      this.areAllOwn = [...own].reduce((sum, one) => sum + one.length + 128, 0) > this.most.none;
      if (!this.areAllOwn) this.own = own;
    }
    this.forget(url);
    this.known.set(url, { kind, what, count: size + url.length + 128 });
    this.order[kind].unshift(url);
    while (this.counted(kind) > this.most[kind] && this.order[kind].length > 1) this.forget(this.order[kind][this.order[kind].length - 1]);
  }

  forget(url) {
    const known = this.known.get(url);
    if (!known) return;
    this.known.delete(url);
    this.order[known.kind] = this.order[known.kind].filter((other) => other !== url);
  }

  peek(url) {
    return this.known.get(this.key(url));
  }

  ask(url) {
    const known = this.peek(url);
    if (known) this.order[known.kind] = [this.key(url), ...this.order[known.kind].filter((other) => other !== this.key(url))];
    return known;
  }
}

const URLS = ['a.js', 'a.js?1', 'a.js?2', 'a.js#x', 'b.js', 'b.js?1#y', '/d/e.js', '/d/e.js?v=2', 'https://e.test/f.js', 'https://e.test/f.js?2', 'x/../y.js', 'c.js', '[native code]'];
const isLocation = (url) => !['x/../y.js', '[native code]'].includes(url);
const [NONE, THROWS, REFUSED] = [-1, -2, -3];
const BOUNDS = [0, 1, 600, 900, 1500, 2500, 4000, 30000, 1e9];
const sizes = Array.from({ length: 12 }, (_, number) => new TraceMap(textOf(`${number}.ts`)).nbytes);
const dataOf = (what) => (what >= 0 ? textOf(`${what}.ts`) : what === REFUSED ? '{}' : null);
// What comes of a map at the URL at which it stands.
const nameAt = (key, what) => (key.startsWith('https:') ? `https://e.test/${what}.ts` : `${what}.ts`);
const sizeAt = (key, what) => sizes[what] + nameAt(key, what).length - nameAt('', what).length;
const anyWhat = () => [NONE, THROWS, REFUSED, ...Array(6).fill(0)][below(9)] || below(12);

// A run: maps, their model, and what there is behind the loader, which changes.
class Run {
  constructor(isLater) {
    const maxBytes = BOUNDS[below(BOUNDS.length)];
    this.there = new Map(URLS.map((url) => [url, anyWhat()]));
    [this.asked, this.wanted, this.told, this.toBeTold] = [[], [], [], []];
    const load = (url) => {
      this.asked.push(url);
      const what = this.there.get(url);
      return what === THROWS ? throwing() : dataOf(what);
    };
    const loadAsync = async (url) => {
      const data = load(url);
      for (let count = below(4); count > 0; count -= 1) await null;
      return data;
    };
    const refused = (url) => this.told.push(url);
    this.isLater = isLater;
    this.maps = new Maps({ maxBytes, refused, retryAfter: Infinity, atOnce: 1, ...(isLater ? { loadAsync } : { load }) });
    this.model = new Model(maxBytes);
  }

  // What the loader comes to is put under a key.
  come(key) {
    const url = cut(key);
    this.wanted.push(url);
    const what = this.there.get(url);
    if (what === THROWS || what === REFUSED) this.toBeTold.push(url);
    if (what >= 0) this.model.put(key, 'map', what, sizeAt(key, what));
    else this.model.put(key, 'none', what, 0);
  }

  // What a look-up finds: the name of a source, or null.
  find(url, asks) {
    let known = this.model.ask(url);
    if (!known && asks && isLocation(cut(url))) {
      this.come(this.model.key(url));
      known = this.model.ask(url);
    }
    return known && known.what >= 0 ? nameAt(this.model.key(url), known.what) : null;
  }

  async step() {
    const { maps, model, isLater } = this;
    const [url, deed] = [URLS[below(URLS.length)], below(12)];
    if (deed < 2) this.there.set(url, anyWhat());
    else if (deed === 2) {
      const what = below(12);
      maps.add(url, dataOf(what));
      model.put(url, 'map', what, sizeAt(url, what));
    } else if (deed === 3) {
      maps.discard(url);
      model.forget(model.key(url));
    } else if (deed === 4) {
      assert.deepStrictEqual(maps.has(url), Boolean(model.peek(url)));
    } else if (deed < 8) {
      if (isLater && deed === 7) {
        await maps.load([url]);
        if (!model.peek(url) && isLocation(cut(url))) this.come(model.key(url));
      }
      const look = below(3) ? () => sourceOf(maps, url) : () => maps.get(url) && maps.get(url).resolvedSources[0];
      if (isLater && !model.peek(url) && isLocation(cut(url))) assert.throws(look, /`load` is wanted/);
      else assert.deepStrictEqual(look(), this.find(url, !isLater));
    } else {
      const urls = Array.from({ length: below(8) }, () => URLS[below(URLS.length)]);
      const names = urls.map((each) => this.find(each, true) || each);
      const text = `x\n${urls.map(frame).join('')}`;
      const got = isLater ? await rewriteAsync(maps, text) : rewrite(maps, text);
      assert.deepStrictEqual(String(got), `x\n${names.map(frame).join('')}`);
    }
    this.check();
  }

  check() {
    const { maps, model } = this;
    assert.deepStrictEqual(this.asked, this.wanted);
    assert.deepStrictEqual(this.told, this.toBeTold);
    assert.deepStrictEqual([maps.size, maps.nbytes], [model.order.map.length, model.counted('map') + model.counted('none')]);
    reported += 1;
  }
}

async function byChance(runs) {
  for (let i = 0; i < runs; i += 1) {
    const run = new Run(i % 3 === 0);
    for (let steps = below(12); steps >= 0; steps -= 1) await run.step();
    run.maps.close();
  }
}

// Many at once, with loaders that are slow and fail, and maps that are added and discarded meanwhile: no URL is loaded twice at once, and
// each answer is one of those that its URL had while it was asked for, or none where the loader failed or the URL was unknown.
async function manyAtOnce(runs) {
  for (let i = 0; i < runs; i += 1) {
    const [loading, had] = [new Set(), new Map(URLS.map((url) => [url, new Set([url])]))];
    let number = 0;
    const made = (url) => {
      number += 1;
      for (const other of URLS) if (cut(other) === url || other === url) had.get(other).add(nameAt(url, number));
      return textOf(`${number}.ts`);
    };
    const loadAsync = async (url) => {
      assert.ok(!loading.has(url) && isLocation(url), `${url} is asked for twice at once`);
      loading.add(url);
      for (let count = below(5); count > 0; count -= 1) await (below(8) ? null : ticks());
      loading.delete(url);
      return [() => null, throwing, () => '{}', made, made, made][below(6)](url);
    };
    const maps = new Maps({ loadAsync, maxBytes: BOUNDS[below(BOUNDS.length)], atOnce: 1 + below(4), retryAfter: [0, Infinity][below(2)], refused: () => {} });
    const deeds = Array.from({ length: 1 + below(8) }, async () => {
      for (let count = below(3); count > 0; count -= 1) await null;
      const [url, deed] = [URLS[below(URLS.length - 1)], below(8)];
      if (deed === 0) maps.add(url, made(url));
      else if (deed === 1) maps.discard(url);
      else if (deed === 2) await maps.load(URLS.slice(below(4), 4 + below(8)));
      else {
        const urls = Array.from({ length: below(6) }, () => URLS[below(URLS.length)]);
        const lines = String(await rewriteAsync(maps, urls.map(frame).join(''), deed === 3 ? { stripAnsi: true } : {})).split('\n');
        urls.forEach((each, at) => assert.ok([...had.get(each)].some((name) => `${lines[at]}\n` === frame(name)), `${each} became ${lines[at]}`));
      }
    });
    await Promise.all(deeds);
    assert.ok(loading.size === 0 || maps.size >= 0);
    reported += 1;
  }
}

(async () => {
  const runs = Number(process.argv[2] || 100000);
  const folder = fs.mkdtempSync(path.join(os.tmpdir(), 'smap-store-'));
  try {
    for (const test of [late, replaced, queries, () => patiently(failing), once, () => patiently(together), halves, within, large, () => patiently(beside)]) await test();
    await patiently(() => files(fs.mkdtempSync(path.join(folder, 'maps-'))));
  } finally {
    fs.rmSync(folder, { recursive: true });
  }
  await byChance(runs);
  await manyAtOnce(Math.ceil(runs / 4));
  console.log('store', reported);
})().catch((error) => {
  console.error(error);
  process.exitCode = 1;
});
