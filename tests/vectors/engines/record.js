#!/usr/bin/env node
// Runs the cases beside itself in node, Chromium, Firefox and the shells of JavaScriptCore and SpiderMonkey, and writes
// what each printed to seen.json.
//
//   node tests/vectors/engines/record.js [ENGINE]...
//
// README.md in the folder above says what it needs. It makes the folder /srv/engines, which must not be there, and
// removes it.
'use strict';

const fs = require('fs');
const path = require('path');
const { execFileSync, spawnSync } = require('child_process');
const { chromium, firefox, posted } = require('./browsers.js');

const APP = '/srv/engines';
const ORIGIN = 'http://example.test';
const read = (name) => fs.readFileSync(path.join(__dirname, name), 'utf8');
// All on one line, as a minifier writes it.
const oneLine = (text) => text.replace(/\n\s*/g, ' ');

// Where the script of places stands.
const PLACES = [
  `${ORIGIN}/u.js?v=3#part`,
  `${ORIGIN}/u.js?at=a (b)&c=@d:8:9`,
  `${ORIGIN}:8080/u.js`,
  'http://[2001:db8::1]:8080/u.js',
  `${ORIGIN}/a (b)/u.js:8`,
  `${ORIGIN}/a%20(b)/u.js:8:9`,
  `${ORIGIN}/npm/react@18.2.0/u.js`,
  `${ORIGIN}/größe/形.js`,
  'http://größe.test/u.js',
  `${ORIGIN}/async u.js`,
  `${ORIGIN}/u,v;w'x.js`,
  `${ORIGIN}/a/../b/./u.js`,
  `${ORIGIN}/u.js line 3 > eval`,
  `${ORIGIN}/`,
];

// What each URL gives: its type and text.
const MODULES = ['module.mjs', 'dep.mjs', 'late.mjs', 'failing.mjs'];
const JS = 'text/javascript; charset=utf-8';
const inlineScript = `<script>
  function inline() { throw new Error('inline'); }
  seen('inline', () => inline());
  seen('inline, awaited', async () => { await null; inline(); });
</script>`;
const BEGIN = `<!DOCTYPE html><meta charset="utf-8"><script>globalThis.asSites = location.search === '?sites';
globalThis.report = (text) => { const p = new XMLHttpRequest(); p.open('POST', '/report', false); p.send(text); };</script>
<script src="/seen.js"></script>`;
const PAGES = {
  cases: `${BEGIN}<script src="/cases.js"></script>`,
  line: `${BEGIN}<script src="/one-line.js"></script>`,
  module: `${BEGIN}<script type="module" src="/module.mjs"></script>`,
  places: `${BEGIN}${PLACES.map((url) => `<script src="${url}"></script>`).join('')}
${inlineScript}
<button onclick="inline()" onfocus="f()">b</button><div id="d"></div>
<script>
  const button = document.querySelector('button');
  const most = (come) => new Promise((done) => { setTimeout(done, 1500); come(done); });
  const caught = (name, run) => most((done) => {
    onerror = (message, source, line, column, error) => { seen(name, () => { throw error; }); done(); return true; };
    try { run(); } catch (error) { onerror('', '', 0, 0, error); }
  });
  const worker = (name, url) => most((done) => {
    new Worker(url).onmessage = ({ data }) => { data.forEach((text) => SEEN.push({ name, ...text })); done(); };
  });
  (async () => {
    const text = ${JSON.stringify(read('place.js'))};
    const load = (url, type = '') => most((done) => {
      document.head.append(Object.assign(document.createElement('script'), { src: url, type, onload: done, onerror: done }));
    });
    await load('data:text/javascript,' + encodeURIComponent(text));
    await load('data:text/javascript;base64,' + btoa(text));
    await load(URL.createObjectURL(new Blob([text], { type: 'text/javascript' })));
    await load('data:text/javascript,' + encodeURIComponent(text), 'module');
    await caught('a handler', () => button.onclick());
    await caught('a clicked handler', () => button.click());
    await caught('a listener', () => { button.onclick = null; button.addEventListener('click', function clicked() { inline(); }); button.click(); });
    await caught('a listener without a name', () => { const other = document.createElement('a'); other.addEventListener('click', () => f()); other.click(); });
    await caught('an object that listens', () => { const other = document.createElement('a'); other.addEventListener('click', { handleEvent() { f(); } }); other.click(); });
    await caught('a timer', () => setTimeout(function tick() { inline(); }, 1));
    await caught('a timer of a text', () => setTimeout('inline()', 1));
    await caught('an interval', () => { const id = setInterval(() => { clearInterval(id); inline(); }, 1); });
    await caught('a frame', () => requestAnimationFrame(() => inline()));
    await caught('an observer', () => { new MutationObserver(() => inline()).observe(document.head, { childList: true }); document.head.append('x'); });
    await caught('a message', () => { onmessage = () => inline(); postMessage(1); });
    await caught('an element', () => { customElements.define('x-y', class extends HTMLElement { connectedCallback() { inline(); } }); document.body.append(document.createElement('x-y')); });
    await caught('a javascript: URL', () => { location.href = 'javascript:inline()'; });
    await seen('fetch', async () => { await fetch('http://[bad'); });
    await seen('the DOM', () => document.body.appendChild(null));
    await seen('an exception of the DOM', () => document.querySelector('['));
    await worker('a worker', '/worker.js');
    await worker('a worker of a blob', URL.createObjectURL(new Blob([WORKER])));
    await worker('a worker of data', 'data:text/javascript,' + encodeURIComponent(WORKER));
    ended();
  })();
  const WORKER = ${JSON.stringify('WORKER')};
</script>`,
};
const WORKER = `globalThis.asSites = SITES;\nfunction f() { throw new Error('w'); }
${read('seen.js')}
seen('w', () => f()); seen('w', () => { [1].map(function each() { f(); }); });
(async () => { await seen('w', async () => { await null; f(); }); postMessage(SEEN); })();`;

function given(url, sites) {
  const { pathname, search, host } = new URL(url, ORIGIN);
  const name = pathname.slice(1);
  if (name === 'one-line.js') return [JS, oneLine(read('cases.js'))];
  if (name === 'worker.js') return [JS, WORKER.replace('SITES', sites)];
  if (name === 'seen.js' || name === 'cases.js' || MODULES.includes(name)) return [JS, read(name)];
  if (name.endsWith('.html')) return ['text/html', PAGES[name.slice(0, -5)].replace('"WORKER"', () => JSON.stringify(WORKER.replace('SITES', sites)).replace(/</g, '\\u003c'))];
  if (PLACES.some((place) => new URL(place).pathname === pathname)) return [JS, read('place.js')];
  return null;
}

// Opens each page in a browser that `start` starts, and gives what it reported.
async function browse(start, hasSites) {
  const result = {};
  for (const page of Object.keys(PAGES)) {
    for (const sites of hasSites ? [false, true] : [false]) {
      const url = `${ORIGIN}/${page}.html${sites ? '?sites' : ''}`;
      const [text] = await posted(start, url, (asked) => given(asked, sites));
      result[sites ? `${page} sites` : page] = JSON.parse(text);
    }
  }
  return result;
}

// Puts a text where a shell finds it under a URL.
function put(url, text) {
  const file = path.join(APP, url);
  fs.mkdirSync(path.dirname(file), { recursive: true });
  fs.writeFileSync(file, text);
  return url;
}

function shell(program, flags, moduleFlags) {
  const result = {};
  const run = (args) => {
    const { stdout, stderr } = spawnSync(program, args, { cwd: APP, encoding: 'utf8' });
    try { return JSON.parse(stdout); } catch { throw new Error(`${program} ${args.join(' ')}: ${stdout}${stderr}`); }
  };
  put('report.js', 'globalThis.report = (text) => print(text);');
  put('seen.js', read('seen.js'));
  put('ended.js', 'ended();');
  for (const name of MODULES) put(name, read(name));
  const around = (...files) => ['report.js', 'seen.js', ...files].flatMap((file) => ['-f', file]);
  result.cases = run(around(put(`${ORIGIN}/cases.js`, read('cases.js'))));
  result.line = run(around(put(`${ORIGIN}/one-line.js`, oneLine(read('cases.js')))));
  const places = PLACES.filter((url) => !/[/]$|[.][.]|[^ -~]/.test(url)).map((url) => put(url, read('place.js')));
  result.places = run(around(...places, 'ended.js'));
  put('start.mjs', `import './report.js'; import './seen.js'; await import('./module.mjs');`);
  put('dep.mjs?v=2', read('dep.mjs'));
  result.module = run([...moduleFlags, 'start.mjs']);
  return result;
}

const RUN = `
globalThis.report = (text) => fs.writeFileSync(process.argv[2], text);
globalThis.asSites = process.argv[1] === 'sites';
const under = (url, name) => vm.runInThisContext(fs.readFileSync(name ?? url, 'utf8'), { filename: url });
under('/srv/engines/seen.js');
`;

function node() {
  const result = {};
  for (const name of ['seen.js', 'cases.js', 'place.js', ...MODULES]) put(name, read(name));
  put('one-line.js', oneLine(read('cases.js')));
  const runs = {
    cases: `under('${ORIGIN}/cases.js', '${APP}/cases.js')`,
    line: `under('${APP}/one-line.js')`,
    places: `for (const url of ${JSON.stringify([...PLACES, 'C:\\a (b)\\u.js', '/srv/a@b/u.js', 'webpack:///./u.js?1234', 'evalmachine.<anonymous>', '<u>', 'u.js', '\\\\host\\u.js'])}) under(url, '${APP}/place.js'); ended();`,
    module: `import('${APP}/module.mjs')`,
  };
  for (const [page, text] of Object.entries(runs)) {
    for (const how of ['', 'sites']) {
      const left = path.join(APP, 'left');
      execFileSync(process.execPath, ['-e', RUN + text, how || 'text', left], { cwd: APP, env: {}, stdio: 'inherit' });
      result[how ? `${page} sites` : page] = JSON.parse(fs.readFileSync(left, 'utf8'));
    }
  }
  return result;
}

const ENGINES = {
  node,
  jsc: () => shell('jsc', [], ['-m']),
  js102: () => shell('js102', [], ['--module-load-path=/srv/engines', '-m']),
  chromium: () => browse(chromium, true),
  firefox: () => browse(firefox, false),
};

(async () => {
  const file = path.join(__dirname, 'seen.json');
  const seen = fs.existsSync(file) ? JSON.parse(fs.readFileSync(file, 'utf8')) : {};
  fs.mkdirSync(APP);
  try {
    for (const name of process.argv.length > 2 ? process.argv.slice(2) : Object.keys(ENGINES)) {
      seen[name] = await ENGINES[name]();
      console.log(name, Object.entries(seen[name]).map(([page, list]) => `${page} ${list.length}`).join(', '));
      fs.writeFileSync(file, JSON.stringify(seen));
    }
  } finally {
    fs.rmSync(APP, { recursive: true });
  }
})();
