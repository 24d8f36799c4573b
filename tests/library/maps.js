'use strict';
// Maps by URL, context, and control sequences in node: node maps.js FOLDER, where FOLDER is empty and may be written to.
const assert = require('node:assert');
const fs = require('node:fs');
const path = require('node:path');
const { Maps, Refused, RewriteStream, Table, TraceMap, frameUrls, rewrite, rewriteAsync, sourceContext } = require('smap');

let reported = 0;

function insist(what, given, wanted) {
  assert.deepStrictEqual(given, wanted, what);
  reported += 1;
}

function raises(what, error, call) {
  assert.throws(call, error, what);
  reported += 1;
}

const textOf = (name, content = 'one\r\ntwo\nthree\rfour\u2028five') =>
  JSON.stringify({
    version: 3, sources: [name, null], sourcesContent: [content, null], names: ['n'], mappings: 'AAAA,IACCA,E;AAEA', ignoreList: [0],
  });
const placeIn = (source) => ({ source, line: 2, column: 1, name: 'n', ignored: true, index: 0, lastColumn: 5 });
const urlOf = (name) => `https://e.test/${name}.js`;

function contexts() {
  const map = new TraceMap(textOf('a.ts'));
  const context = (before, line, after) => ({ before, line, after });
  insist('a line', sourceContext(map, 0, 2), context(['one'], 'two', ['three', 'four']));
  insist('the first', sourceContext(map, 0, 1, 5, 1), context([], 'one', ['two']));
  insist('the last', sourceContext(map, 0, 5, 1, 9), context(['four'], 'five', []));
  insist('one alone', sourceContext(map, 0, 3, 0, 0), context([], 'three', []));
  insist('all', sourceContext(map, 0, 3, 65535, 65535), context(['one', 'two'], 'three', ['four', 'five']));
  insist('no line', sourceContext(map, 0, 6), null);
  insist('no content', sourceContext(map, 1, 1), null);
  insist('a line past all', sourceContext(map, 0, Infinity), null);
  raises('no source', RangeError, () => sourceContext(map, 2, 1));
  raises('line 0', Error, () => sourceContext(map, 0, 0));
  raises('too many', RangeError, () => sourceContext(map, 0, 1, 65536));
  raises('less than none', RangeError, () => sourceContext(map, 0, 1, 0, -1));
  raises('a text for a number', TypeError, () => sourceContext(map, 0, 1, '2'));
  insist('a place', map.placeAt(1, 4), placeIn('a.ts'));
  insist('a place without a name', map.placeAt(1, 0), { ...placeIn('a.ts'), line: 1, column: 0, name: null, lastColumn: 3 });
  insist('a place without an original', map.placeAt(1, 6), null);
  insist('no place', map.placeAt(8, 0), null);
  const long = new TraceMap(textOf('a.ts', `${'x'.repeat(65535)}\u20ac`));
  insist('a long line', sourceContext(long, 0, 1), context([], 'x'.repeat(65535), []));
  const [large, small] = [new TraceMap(textOf('a.ts', 'x'.repeat(100000))), new TraceMap(textOf('a.ts', ''))];
  insist('how large a map is', large.nbytes - small.nbytes, 100000);
  large.close();
  raises('a closed one', Error, () => large.nbytes);
}

function bounded() {
  const asked = [];
  const load = (url) => {
    asked.push(url);
    return url.endsWith('.js') ? textOf(`${url.slice(-4, -3)}.ts`) : null;
  };
  const one = new TraceMap(textOf('a.ts'), urlOf('a')).nbytes + urlOf('a').length + 128;
  const maps = new Maps({ load, maxBytes: 3 * one + (one >> 1) });
  for (const name of 'abcabca') insist('a place', maps.lookUp(`${urlOf(name)}?v=${asked.length}#x`, 1, 4), placeIn(`https://e.test/${name}.ts`));
  insist('what was asked for', asked, [...'abc'].map(urlOf));
  insist('what is kept', [maps.size, maps.nbytes <= maps.maxBytes], [3, true]);
  for (const name of 'dac') maps.lookUp(urlOf(name), 1, 0);
  insist('what goes first', asked.slice(3), [urlOf('d')]);
  maps.lookUp(urlOf('b'), 1, 0);
  insist('what went', asked.slice(4), [urlOf('b')]);
  insist('what has none', ['https://e.test/x.css', '[native code]', '../../x.js', ''].map((url) => maps.get(url)), [null, null, null, null]);
  insist('what is asked for', asked.slice(5), ['https://e.test/x.css']);
  insist('what is known', [maps.has('https://e.test/x.css?1'), maps.has(urlOf('y'))], [true, false]);
  maps.get('https://e.test/x.css');
  insist('once', asked.length, 6);
  maps.discard('https://e.test/x.css?2');
  maps.get('https://e.test/x.css');
  insist('again', asked.length, 7);
  insist('context', maps.context(urlOf('b'), 0, 2, 1, 0), { before: ['one'], line: 'two', after: [] });
  insist('no context', maps.context('https://e.test/x.css', 0, 2), null);
  const kept = maps.get(urlOf('b'));
  for (const name of 'efghi') maps.get(urlOf(name));
  insist('one that was given out', kept.placeAt(1, 0).line, 1);
  maps.add(`${urlOf('b')}?7`, textOf('own.ts'));
  insist('one that was added', maps.lookUp(`${urlOf('b')}?7`, 1, 0).source, 'https://e.test/own.ts');
  insist('beside it', maps.lookUp(`${urlOf('b')}?8`, 1, 0).source, 'https://e.test/b.ts');
  const alone = new Maps({ load, maxBytes: 0 });
  for (const name of 'abab') insist('one by itself', [alone.lookUp(urlOf(name), 1, 0).source, alone.size], [`https://e.test/${name}.ts`, 1]);
  alone.close();
  insist('one that is closed', [alone.size, alone.nbytes], [0, 0]);
  raises('no function', TypeError, () => new Maps({ maxBytes: 1 }));
  raises('another', TypeError, () => new Maps({ load: 7, maxBytes: 1 }));
  raises('no bound', TypeError, () => new Maps({ load }));
  raises('a bound below 0', RangeError, () => new Maps({ load, maxBytes: -1 }));
  raises('an option', TypeError, () => new Maps({ load, maxBytes: 1, most: 1 }));
  raises('a refused map', Refused, () => maps.add(urlOf('z'), '{}'));
}

function refusals() {
  const load = (url) => {
    if (url.includes('raises')) throw new Error('no');
    return '{"version":3,"sources":[],"mappings":"AAAA"}';
  };
  const names = ['raises', 'bad'];
  const maps = new Maps({ load, maxBytes: 10000 });
  insist('what is wrong', names.map((name) => maps.get(urlOf(name))), [null, null]);
  insist('what is kept of it', maps.refusals.map(({ url, error }) => [url, error instanceof Refused]), [[urlOf('raises'), false], [urlOf('bad'), true]]);
  const told = [];
  const telling = new Maps({ load, maxBytes: 10000, refused: (url) => told.push(url) });
  telling.get(urlOf('bad'));
  telling.get(urlOf('bad'));
  insist('what is told', [told, telling.refusals], [[urlOf('bad')], []]);
}

function folders(folder) {
  fs.mkdirSync(path.join(folder, 'maps/js'), { recursive: true });
  fs.writeFileSync(path.join(folder, 'maps/js/a.js.map'), textOf('a.ts'));
  fs.writeFileSync(path.join(folder, 'out.map'), textOf('out.ts'));
  fs.writeFileSync(path.join(folder, 'maps/bad.js.map'), '{');
  fs.mkdirSync(path.join(folder, 'maps/dir.js.map'));
  const maps = Maps.folder('https://e.test/', path.join(folder, 'maps'), { maxBytes: 1 << 20 });
  insist('a file', maps.lookUp('https://e.test/js/a.js?x', 1, 0).source, 'https://e.test/js/a.ts');
  const others = ['../out', 'js/../../out', '/js/a.js', 'js//a.js', './js/a.js', 'js\\a.js', 'c:/a.js', 'js/%2e%2e/out', '', 'js/', 'js/a\0.js', 'a\x7f'];
  for (const url of others) insist(`no file for ${url}`, maps.get(`https://e.test/${url}`), null);
  insist('nothing went wrong', maps.refusals, []);
  insist('another prefix', maps.get('https://other.test/js/a.js'), null);
  insist('wrong ones', ['bad', 'dir'].map((name) => maps.get(urlOf(name))), [null, null]);
  insist('what is kept of them', maps.refusals.map(({ url }) => url), ['bad', 'dir'].map(urlOf));
  raises('no prefix', Error, () => Maps.folder('https://e.test', folder, { maxBytes: 1 }));
  // A folder that is not there is told once, and no file that one has not.
  for (const [name, code] of [['none', 'ENOENT'], ['out.map', 'ENOTDIR'], ['maps', undefined]]) {
    const told = [];
    for (const refused of [undefined, (url, error) => told.push({ url, error })]) {
      for (const freshFor of [undefined, 0]) {
        const none = Maps.folder('https://e.test/', path.join(folder, name), { maxBytes: 1 << 20, refused, freshFor });
        for (let i = 0; i < 2; i += 1) insist(`a trace over ${name}`, rewrite(none, many).toString(), many);
        insist('another prefix', none.get('https://other.test/js/a.js'), null);
        insist(`what is told of ${name}`, (refused ? told.splice(0) : none.refusals).map(({ url, error }) => [url, error.code]), code ? [[urlOf('a'), code]] : []);
      }
    }
  }
}

function pathsOfMaps(folder) {
  const text = '{"version":3,"sources":["../../src/x.ts"],"mappings":"AAAA"}';
  fs.mkdirSync(path.join(folder, 'dist/util'), { recursive: true });
  fs.writeFileSync(path.join(folder, 'dist/util/x.js.map'), text);
  for (const [root, source] of [['/srv/app/dist/', '/srv/app/src/x.ts'], ['https://e.test/dist/', 'https://e.test/src/x.ts']]) {
    const maps = Maps.folder(root, path.join(folder, 'dist'), { maxBytes: 1 << 20, paths: true });
    for (let i = 0; i < 2; i += 1) {
      insist(`a map below ${root}`, maps.lookUp(`${root}util/x.js`, 1, 0).source, source);
      insist(`a trace below ${root}`, rewrite(maps, `    at f (${root}util/x.js?v=1:1:1)\n`).toString(), `    at f (${source}:1:1)\n`);
    }
  }
  const maps = new Maps({ load: () => new TraceMap(text), maxBytes: 1 << 20, paths: true });
  insist('a map that was read', rewrite(maps, 'f@/srv/app/dist/util/x.js:1:1').toString(), 'f@/srv/app/src/x.ts:1:1');
  const read = new TraceMap(text);
  insist('a source', read.resolvedSources, ['../../src/x.ts']);
  maps.add('/srv/dist/y.js', read);
  insist('one that was added', maps.get('/srv/dist/y.js').resolvedSources, ['/src/x.ts']);
  const others = new Maps({ load: () => text, maxBytes: 1 << 20 });
  insist('without paths', others.lookUp('/srv/app/dist/util/x.js', 1, 0).source, '../../src/x.ts');
  raises('a pattern that is added', Error, () => others.add('*x.js', text));
  raises('a pattern as a prefix', Error, () => Maps.folder('*dist/', folder, { maxBytes: 1 }));
}

function patterns() {
  const given = {
    '*app.js': textOf('any.ts'), '*js/app.js': textOf('js.ts'), '*app.js?v=2': textOf('query.ts'), '*.mjs': textOf('none.ts'),
    'https://e.test/x/app.js': textOf('own.ts'),
  };
  const named = {
    'https://one.test/app.js': 'any.ts', 'app.js': 'any.ts', 'https://one.test/app.js?v=3#x': 'any.ts', 'C:\\dist\\app.js': 'any.ts',
    'https://one.test/js/app.js': 'js.ts', 'https://one.test/js/app.js#a?b': 'js.ts', 'https://one.test/xjs/app.js': 'any.ts',
    'https://one.test/app.js?v=2': 'query.ts', 'https://e.test/x/app.js': 'https://e.test/x/own.ts',
    'https://e.test/x/app.js?v=2': 'https://e.test/x/own.ts', 'https://one.test/xapp.js': null, 'https://one.test/app.js/b.js': null,
    'https://one.test/x.mjs': null, 'node:internal/app.js': null, 'https://one.test/': null,
  };
  const asked = [];
  const load = (url) => void asked.push(url);
  for (const options of [{}, { load }]) {
    const table = new Table(given, options);
    for (const [url, source] of Object.entries(named)) {
      const [frame, made] = [`    at f (${url}:1:5)\n`, `    at f (${source}:2:2)\n`];
      insist(`a frame of ${url}`, rewrite(table, frame).toString(), source ? made : frame);
      const place = table.lookUp(url, 1, 4);
      insist(`a place in ${url}`, place && place.source, source);
      if (!/^(https|app)/.test(url)) continue;
      const [text, replaced] = [`{"at":"${url}:1:5"} 12:30:45`, `{"at":"${source}:2:2"} 12:30:45`];
      insist(`${url} anywhere`, rewrite(table, text, { anywhere: true }).toString(), source ? replaced : text);
    }
  }
  insist('what is asked for', asked, Object.keys(named).filter((url) => named[url] === null));
  const ofAll = new Table({ '*': textOf('all.ts') }, { load });
  insist('each URL', rewrite(ofAll, 'f@x:1:5\ng@https://e.test/y?z:1:5\n').toString(), 'f@all.ts:2:2\ng@all.ts:2:2\n');
  raises('each place', Error, () => rewrite(ofAll, 'x:1:5', { anywhere: true }));
  asked.length = 0;
  insist('what reads as a pattern', rewrite(new Table({}, { load }), 'f@*/x.js:1:5').toString(), 'f@*/x.js:1:5');
  insist('of none it is asked', asked, []);
  raises('twice', Refused, () => new Table([['*a.js', textOf('a.ts')], ['*a.js', textOf('a.ts')]]));
  raises('a line end', Refused, () => new Table({ '*a\nb': textOf('a.ts') }));
}

const trace = `Error: x\n    at f (https://e.test/a.js:1:5)\n    at https://e.test/b.js?v=1:1:1\n    at g (https://e.test/none.css:1:1)
    at eval ([native code]:1:1)\n    at h (https://e.test/a.js#x:1:5)\n`;
const wanted = `Error: x\n    at f (https://e.test/a.ts:2:2)\n    at https://e.test/b.ts:1:1\n    at g (https://e.test/none.css:1:1)
    at eval ([native code]:1:1)\n    at h (https://e.test/a.ts:2:2)\n`;
const many = [...'abcdefghabcdefgh'].map((name) => `    at f (${urlOf(name)}:1:5)\n`).join('');
const coloured = trace.replace(/https/g, '\x1b[1mhttps').replace(/js/g, 'js\x1b[0m');
const loaded = (url) => (url.endsWith('.js') ? textOf(`${url.slice(-4, -3)}.ts`) : null);

function rewriting() {
  insist('the URLs of frames', frameUrls(trace), [urlOf('a'), urlOf('b'), 'https://e.test/none.css']);
  insist('the URLs of places', frameUrls('{https://e.test/a.js?x:1:2} at https://e.test/a.js:1:3', { anywhere: true }), [urlOf('a')]);
  insist('of nothing', frameUrls(''), []);
  for (const maxBytes of [1 << 20, 0, 600]) {
    const maps = new Maps({ load: loaded, maxBytes });
    insist('a trace', rewrite(maps, trace).toString(), wanted);
    insist('its counts', maps.counts, { lines: 6, frames: 5, mapped: 3, hidden: 0 });
    insist('hidden', rewrite(maps, trace, { hideIgnored: true }).toString().split('\n').length, 4);
    insist('places', rewrite(maps, trace, { anywhere: true }).toString(), wanted);
    insist('coloured', rewrite(maps, coloured, { stripAnsi: true }).toString(), wanted);
    insist('no trace', [rewrite(maps, '').length, maps.counts.lines], [0, 0]);
    insist('many maps', rewrite(maps, many).toString(), many.replace(/js:1:5/g, 'ts:2:2'));
    insist('the bound', maps.nbytes <= Math.max(maxBytes, 1000), true);
  }
  const maps = new Maps({ load: loaded, maxBytes: 1 << 20 });
  maps.add(urlOf('a'), textOf('own.ts'));
  insist('what was added', rewrite(maps, `    at f (${urlOf('a')}:1:5)\n`).toString(), '    at f (https://e.test/own.ts:2:2)\n');
  const table = new Table({ [urlOf('a')]: textOf('a.ts') });
  insist('one place', table.lookUp(`${urlOf('a')}?v=1`, 1, 4), placeIn('https://e.test/a.ts'));
  insist('no map', table.lookUp(urlOf('b'), 1, 4), null);
  insist('no mapping', table.lookUp(urlOf('a'), 9, 4), null);
  raises('line 0', Error, () => table.lookUp(urlOf('a'), 0, 0));
  const loading = new Table({}, { load: loaded });
  insist('one that is loaded', loading.lookUp(`${urlOf('c')}?1`, 1, 0).source, 'https://e.test/c.ts');
}

const through = (stream, pieces) =>
  new Promise((resolve, reject) => {
    const parts = [];
    stream.on('data', (part) => parts.push(part)).on('end', () => resolve(Buffer.concat(parts).toString())).on('error', reject);
    for (const piece of pieces) stream.write(piece);
    stream.end();
  });

async function streams() {
  const bytes = Buffer.from(coloured);
  for (const size of [1, 2, 3, 7, 1000]) {
    const pieces = [];
    for (let at = 0; at < bytes.length; at += size) pieces.push(bytes.subarray(at, at + size));
    insist('in pieces', await through(new RewriteStream(new Table({}, { load: loaded }), { stripAnsi: true }), pieces), wanted);
    insist('over maps', await through(new RewriteStream(new Maps({ load: loaded, maxBytes: 600 }), { stripAnsi: true }), pieces), wanted);
  }
  const odd = ['\x1b', '[', '3', '1', 'mx', '\x1b[', '\x1b[0', `${';'.repeat(200)}m`, '\x1b[1m\n', '\x1b[', '\x1b'];
  const stream = new RewriteStream(new Table({}), { stripAnsi: true });
  insist('what is no sequence', await through(stream, odd), `x\x1b[\x1b[0${';'.repeat(200)}m\n\x1b[\x1b`);
  const line = `${'\x1b[1m-'.repeat(50000)}\n`;
  insist('a long line', await through(new RewriteStream(new Table({}), { stripAnsi: true }), [line, line]), `${'-'.repeat(50000)}\n`.repeat(2));
}

async function waiting() {
  let [now, most] = [0, 0];
  const asked = [];
  const loadAsync = async (url) => {
    asked.push(url);
    most = Math.max(most, (now += 1));
    await new Promise((resolve) => setTimeout(resolve, 2));
    now -= 1;
    if (url === urlOf('g')) throw new Error('no');
    return loaded(url);
  };
  const maps = new Maps({ loadAsync, maxBytes: 1 << 20, atOnce: 3 });
  await maps.load([...'abcdefgabc'].map(urlOf));
  insist('how many at once', [most, asked.length, maps.size, maps.refusals.length], [3, 7, 6, 1]);
  insist('a place', maps.lookUp(urlOf('a'), 1, 4), placeIn('https://e.test/a.ts'));
  insist('what failed', maps.lookUp(urlOf('g'), 1, 4), null);
  insist('what none is asked for', maps.lookUp('[native code]', 1, 4), null);
  const early = /^Error: `load` is wanted: it is rewriteAsync, maps\.load and streams that ask `loadAsync`$/;
  for (const call of [() => maps.lookUp(urlOf('x'), 1, 4), () => maps.get(urlOf('x')), () => maps.context(urlOf('x'), 0, 1), () => rewrite(maps, trace.replace('/a.', '/x.'))]) {
    raises('one that was not waited for', early, call);
  }
  insist('what is known of it', [maps.has(urlOf('x')), asked.length], [false, 7]);
  for (const bad of ['https://e.test/a.js', 7, null, undefined, {}, [urlOf('a'), 7]]) await assert.rejects(maps.load(bad), TypeError);
  insist('of which none is asked for', [asked.length, maps.refusals.length], [7, 1]);
  await maps.load(new Set([urlOf('x')]));
  insist('one that was', maps.lookUp(urlOf('x'), 1, 4), placeIn('https://e.test/x.ts'));
  for (const maxBytes of [1 << 20, 600, 0]) {
    const some = new Maps({ loadAsync, maxBytes });
    raises('without waiting', Error, () => rewrite(some, trace));
    insist('a trace', (await rewriteAsync(some, trace)).toString(), wanted);
    insist('places', (await rewriteAsync(some, coloured, { anywhere: true, stripAnsi: true })).toString(), wanted);
    const both = await Promise.all([rewriteAsync(some, trace), rewriteAsync(some, many), rewriteAsync(some, trace)]);
    const all = many.replace(/js:1:5/g, 'ts:2:2').replace('g.ts:2:2', 'g.js:1:5').replace('g.ts:2:2', 'g.js:1:5');
    insist('several', both.map(String), [wanted, all, wanted]);
  }
}

(async () => {
  contexts();
  bounded();
  refusals();
  folders(process.argv[2]);
  pathsOfMaps(process.argv[2]);
  patterns();
  rewriting();
  await streams();
  await waiting();
  console.log('maps', reported);
})();
