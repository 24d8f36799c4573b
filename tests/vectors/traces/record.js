#!/usr/bin/env node
// Bundles the programs in src/ in five ways, runs them under node, and writes the maps and the traces beside itself.
//
//   NODE_PATH=/usr/share/nodejs node tests/vectors/traces/record.js
//
// It needs node 20 and, of Debian 12, the packages esbuild, rollup, terser, webpack and node-typescript. It makes the
// folder /srv/app, which must not be there, so that no path of the machine stands in a trace, and removes it. ESBUILD is
// the path of esbuild.
'use strict';

const fs = require('fs');
const path = require('path');
const { execFileSync, spawnSync } = require('child_process');

// Debian's webpack asks for this, which Debian's node has.
const variables = { node_relative_path: 'share/nodejs', node_prefix: '/usr', ...process.config.variables };
Object.defineProperty(process, 'config', { value: { ...process.config, variables } });

const { rollup } = require('rollup');
const { minify } = require('terser');
const webpack = require('webpack');
const ts = require('typescript');

const SRC = path.join(__dirname, 'src');
const APP = '/srv/app';

function esbuild(name) {
  const options = ['--bundle', '--minify', '--sourcemap', '--charset=utf8', '--log-level=error'];
  execFileSync(process.env.ESBUILD ?? 'esbuild', [`src/${name}.js`, ...options, `--outfile=${name}.js`], { cwd: APP });
  const read = (file) => fs.readFileSync(path.join(APP, file), 'utf8');
  return { code: read(`${name}.js`).replace(/\/\/# sourceMappingURL=.*\n/, ''), map: JSON.parse(read(`${name}.js.map`)) };
}

async function rolled(name) {
  const bundle = await rollup({ external: /:/, input: `${APP}/src/${name}.js` });
  const { output } = await bundle.generate({ file: `${APP}/${name}.mjs`, format: 'es', sourcemap: true });
  const sourceMap = { content: output[0].map, filename: `${name}.mjs` };
  const { code, map } = await minify(output[0].code, { module: true, sourceMap });
  return { code, map: JSON.parse(map) };
}

function packed(name) {
  const to = `${APP}/packed`;
  const options = {
    mode: 'production',
    context: APP,
    devtool: 'source-map',
    entry: `./src/${name}.js`,
    output: { path: to, filename: `${name}.cjs` },
    target: 'node',
  };
  return new Promise((resolve, reject) => {
    webpack(options, (error, stats) => {
      if (error || stats.hasErrors()) return reject(error ?? stats.toString());
      const read = (file) => fs.readFileSync(path.join(to, file), 'utf8');
      return resolve({
        code: read(`${name}.cjs`).replace(/\n\/\/# sourceMappingURL=.*/, ''),
        map: JSON.parse(read(`${name}.cjs.map`)),
      });
    });
  });
}

function transpiled(name) {
  const compilerOptions = {
    target: ts.ScriptTarget.ES2016,
    module: ts.ModuleKind.CommonJS,
    sourceMap: true,
    sourceRoot: 'https://cdn.example.test/größe',
  };
  const text = fs.readFileSync(`${SRC}/${name}.ts`, 'utf8');
  const { outputText, sourceMapText } = ts.transpileModule(text, { compilerOptions, fileName: `${name}.ts` });
  return { code: outputText.replace(/\/\/# sourceMappingURL=.*/, ''), map: JSON.parse(sourceMapText) };
}

// Two bundles on one line, and an index map of theirs.
function pieces(names) {
  let code = '';
  const sections = names.map((name) => {
    const piece = esbuild(name);
    const last = code.split('\n');
    const offset = { line: last.length - 1, column: last.pop().length };
    code += `${piece.code.trimEnd()}/* end of ${name} */`;
    return { offset, map: bare(piece.map) };
  });
  return { code, map: { version: 3, sections } };
}

// The keys of a map that are read, without the contents.
function bare({ version, sourceRoot, sources, names, mappings, sections }) {
  return sections ? { version, sections } : { version, sourceRoot, sources, names, mappings };
}

function run(code, args) {
  const log = fs.openSync(`${APP}/log`, 'w');
  spawnSync(process.execPath, [...code, ...args], { cwd: APP, stdio: ['ignore', log, log], env: {} });
  return fs.readFileSync(`${APP}/log`);
}

// Runs a script under a URL, or starts a file as a worker.
const SCRIPT = ['-e', 'vm.runInThisContext(fs.readFileSync(process.argv[1], "utf8"), { filename: process.argv[2] })'];
const WORKER = ['-e', 'new worker_threads.Worker(process.argv[1])'];

// Writes a bundle to a path, and its map here.
function place(to, name, { code, map }) {
  fs.mkdirSync(path.dirname(to), { recursive: true });
  fs.writeFileSync(to, code);
  fs.writeFileSync(path.join(__dirname, `${name}.map`), JSON.stringify(bare(map)));
  return to;
}

function keep(name, trace) {
  fs.writeFileSync(path.join(__dirname, `${name}.trace`), trace);
}

async function main() {
  fs.mkdirSync(APP);
  fs.cpSync(SRC, `${APP}/src`, { recursive: true });
  const calls = place(`${APP}/calls.js`, 'calls', esbuild('calls'));
  keep('calls', run(SCRIPT, [calls, 'https://example.test/calls.js?v=3']));
  const waits = place(`${APP}/waits.mjs`, 'waits', await rolled('waits'));
  keep('waits', run([], [waits]));
  keep('worker', run(WORKER, [waits]));
  keep('texts', run([], [place(`${APP}/a (b)/texts.cjs`, 'texts', await packed('texts'))]));
  keep('typed', run([], [place(`${APP}/größe.cjs`, 'typed', transpiled('typed'))]));
  const both = place(`${APP}/pieces.js`, 'pieces', pieces(['first', 'second']));
  keep('pieces', run(SCRIPT, [both, 'https://example.test/pieces.js']));
}

main().finally(() => fs.rmSync(APP, { recursive: true }));
