#!/usr/bin/env node
// Makes the rows of `rewrite --paths`: what node 20 prints for errors of a folder of compiled modules, and of a bundle beside it,
// and that text with the places that node itself prints for the same errors over its own reader of source maps.
//
//   ESBUILD=/usr/bin/esbuild NODE_PATH=/usr/share/nodejs node make-paths.js
//
// It needs node 20 and, of Debian 12, the packages esbuild and node-typescript. It makes the folder /srv/shop, which must not be
// there, so that no path of the machine stands in a trace, and removes it. Nothing here is made from smap's own code or output.
'use strict';

const fs = require('fs');
const path = require('path');
const { execFileSync, spawnSync } = require('child_process');
const ts = require('typescript');
const { file, putFile, putRows, row, words } = require('./rows.js');

const SHOP = '/srv/shop';
const MODULES = ['main', 'orders/total', 'text/json/prices'];
const PLACE = /(\/srv\/shop\/[^\s():]+):(\d+):(\d+)/g;

function insist(holds, what) {
  if (!holds) throw new Error(what);
}

// ---------------------------------------------------------------------------------------------
// The folder of modules, which TypeScript compiles one by one, and the bundle, in a folder above.
// ---------------------------------------------------------------------------------------------

const at = (...names) => path.join(SHOP, ...names);

function compile(to) {
  const compilerOptions = { module: ts.ModuleKind.CommonJS, target: ts.ScriptTarget.ES2020, sourceMap: true, rootDir: at('src') };
  const program = ts.createProgram([at('src/main.ts')], { ...compilerOptions, outDir: at(to), types: [] });
  const { emitSkipped } = program.emit();
  insist(!emitSkipped, `nothing in ${to}`);
}

function bundle(to) {
  execFileSync(process.env.ESBUILD ?? 'esbuild', [
    'src/main.ts', '--bundle', '--minify', '--sourcemap', '--platform=node', '--log-level=error', `--outfile=${to}`,
  ], { cwd: SHOP });
}

function mapText(name) {
  const { sourcesContent, ...map } = JSON.parse(fs.readFileSync(at(`${name}.map`), 'utf8'));
  return JSON.stringify(map);
}

// ---------------------------------------------------------------------------------------------
// What node prints of a program, and what it prints with its own reader of maps.
// ---------------------------------------------------------------------------------------------

function printed(program, ...options) {
  const { stderr, status } = spawnSync(process.execPath, [...options, at(program)], { encoding: 'utf8', env: { NO_COLOR: '1' } });
  insist(status === 0, stderr);
  return stderr;
}

// The text with the places of the other in place of its own, one by one. Names are node's of the running program.
function withPlaces(text, other) {
  const [own, others] = [text.match(PLACE), other.match(PLACE)];
  insist(own.length === others.length && own.length > 0, `other places: ${other}`);
  let next = 0;
  return { wanted: text.replace(PLACE, () => others[next++]), places: own.length };
}

const total = { programs: 0, places: 0 };

function traceOf(program) {
  const text = printed(program);
  const { wanted, places } = withPlaces(text, printed(program, '--enable-source-maps'));
  insist(!/\.js:\d/.test(wanted), `a place without an original: ${wanted}`);
  total.programs += 1;
  total.places += places;
  return { text, wanted };
}

insist(!fs.existsSync(SHOP), `${SHOP} is there`);
fs.cpSync(path.join(__dirname, 'paths'), at('src'), { recursive: true });
try {
  compile('dist');
  bundle('bundle/min/main.js');
  const programs = ['dist/main.js', 'bundle/min/main.js'];
  const [modules, bundled] = programs.map(traceOf);
  for (const name of MODULES) putFile(`shop/dist/${name}.js.map`, mapText(`dist/${name}.js`));
  putFile('shop/bundle/min/main.js.map', mapText('bundle/min/main.js'));
  putFile('shop/modules.txt', modules.text);
  putFile('shop/bundle.txt', bundled.text);
  const each = MODULES.map((name) => `${SHOP}/dist/${name}.js=shop/dist/${name}.js.map`);
  const ran = (list, text, { wanted }) => row(['run', words('rewrite', '--paths', ...list), file(text)], [0, wanted, '']);
  putRows('Traces of compiled folders', __filename, [
    ran([`${SHOP}/=shop/`], 'shop/modules.txt', modules),
    ran(each, 'shop/modules.txt', modules),
    ran(['--cache', '0', '*/dist/=shop/dist/'], 'shop/modules.txt', modules),
    ran(['--anywhere', `${SHOP}/dist/=shop/dist/`], 'shop/modules.txt', modules),
    ran([`${SHOP}/=shop/`], 'shop/bundle.txt', bundled),
    ran(['*/min/main.js=shop/bundle/min/main.js.map'], 'shop/bundle.txt', bundled),
  ]);
} finally {
  fs.rmSync(SHOP, { recursive: true });
}
console.log(total);
