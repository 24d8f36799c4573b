// Builds of real modules in three steps, each with a map of that step alone.
'use strict';

const fs = require('fs');
const path = require('path');
const { execFileSync } = require('child_process');
const { filesIn } = require('./remapped.js');

const ROOT = path.join(__dirname, '..', '..');

// Of these packages the maps hold the TypeScript that they were made from. The first file is where a bundle begins.
const TYPED = [
  ['generator', 'src/index.ts'],
  ['traverse', 'src/index.ts'],
  ['template', 'src/index.ts'],
  ['parser', 'src/index.ts'],
  ['types', 'src/index.ts'],
];

// The folder of a module of node.
function folderOf(name) {
  const file = require.resolve(name);
  return file.slice(0, file.lastIndexOf(`/${name}/`) + `/${name}`.length);
}

function write(file, text) {
  fs.mkdirSync(path.dirname(file), { recursive: true });
  fs.writeFileSync(file, text);
}

// All files below a folder with this ending, as paths from there.
function filesBelow(folder, ending) {
  return fs.readdirSync(folder, { recursive: true }).filter((name) => name.endsWith(ending)).sort();
}

// Code without the comment that names its map, and the map of it beside it: a step that knows of no other.
function place(file, code, map) {
  write(file, code.replace(/\n?\/\/# sourceMappingURL=.*\s*$/, '\n'));
  write(`${file}.map`, typeof map === 'string' ? map : JSON.stringify(map));
}

// ---------------------------------------------------------------------------------------------
// The sources.
// ---------------------------------------------------------------------------------------------

// The TypeScript of a package, from the contents in its maps. JavaScript among it is taken for TypeScript.
function unpack(name, folder) {
  const lib = path.join(folderOf(`@babel/${name}`), 'lib');
  for (const map of filesBelow(lib, '.js.map')) {
    const { sources, sourcesContent } = JSON.parse(fs.readFileSync(path.join(lib, map), 'utf8'));
    sources.forEach((source, i) => {
      const to = path.join('lib', path.dirname(map), source);
      if (/^src\/.*\.[jt]s$/.test(to)) write(path.join(folder, to.replace(/\.js$/, '.ts')), sourcesContent[i]);
    });
  }
}

// ---------------------------------------------------------------------------------------------
// The first step: each module src/NAME to build/NAME.js.
// ---------------------------------------------------------------------------------------------

// Calls the step for each module, with the paths of both files, the text, and the name of the source in the map.
function eachModule(folder, ending, step) {
  for (const name of filesBelow(path.join(folder, 'src'), ending)) {
    const to = path.join(folder, 'build', name.replace(/\.ts$/, '.js'));
    const from = path.join(folder, 'src', name);
    step(from, to, fs.readFileSync(from, 'utf8'), path.relative(path.dirname(to), from));
  }
}

function byTypeScript(folder) {
  const ts = require('typescript');
  const compilerOptions = {
    target: ts.ScriptTarget.ES2020,
    module: ts.ModuleKind.ES2020,
    sourceMap: true,
    inlineSources: true,
  };
  eachModule(folder, '.ts', (from, to, text, source) => {
    const { outputText, sourceMapText } = ts.transpileModule(text, { compilerOptions, fileName: from });
    place(to, outputText, { ...JSON.parse(sourceMapText), sources: [source] });
  });
}

function byBabel(folder) {
  const babel = require('@babel/core');
  const presets = [[require.resolve('@babel/preset-typescript'), { allowDeclareFields: true }]];
  eachModule(folder, '.ts', (from, to, text, source) => {
    const options = { filename: from, sourceFileName: source, sourceMaps: true, presets, configFile: false, babelrc: false };
    const { code, map } = babel.transformSync(text, options);
    place(to, code, map);
  });
}

function esbuild(folder, options, files) {
  const all = [...options, '--sourcemap', '--charset=utf8', '--log-level=error', '--legal-comments=none'];
  execFileSync(process.env.ESBUILD ?? 'esbuild', [...files, ...all], { cwd: folder, stdio: ['ignore', 'ignore', 'inherit'] });
}

function placeAgain(file) {
  place(file, fs.readFileSync(file, 'utf8'), fs.readFileSync(`${file}.map`, 'utf8'));
}

function byEsbuild(folder) {
  const files = filesBelow(path.join(folder, 'src'), '.ts').map((name) => path.join('src', name));
  esbuild(folder, ['--outdir=build', '--outbase=src', '--target=es2020'], files);
  filesBelow(path.join(folder, 'build'), '.js').forEach((name) => placeAgain(path.join(folder, 'build', name)));
}

// Minifies each module by itself.
async function byTerser(folder) {
  const { minify } = require('terser');
  const steps = [];
  eachModule(folder, '.js', (from, to, text, source) => steps.push([to, text, source]));
  for (const [to, text, source] of steps) {
    const { code, map } = await minify({ [source]: text }, { module: true, sourceMap: { includeSources: true } });
    place(to, code, map);
  }
}

// ---------------------------------------------------------------------------------------------
// The second step: all modules to dist/bundle.js.
// ---------------------------------------------------------------------------------------------

// The file of a module that one of build/ names, or null.
function resolved(name, importer) {
  if (!name.startsWith('.')) return null;
  const from = path.resolve(path.dirname(importer), name);
  const files = [from, `${from}.js`, from.replace(/\.ts$/, '.js'), path.join(from, 'index.js')];
  return files.find((file) => fs.existsSync(file) && fs.statSync(file).isFile()) ?? null;
}

async function byRollup(folder, entry) {
  const { rollup } = require('rollup');
  const found = {
    name: 'found',
    resolveId: (name, importer) => (importer === undefined ? null : resolved(name, importer) ?? { id: name, external: true }),
  };
  const options = { input: path.join(folder, 'build', entry), plugins: [found], onwarn() {}, shimMissingExports: true };
  const bundle = await rollup(options);
  const file = path.join(folder, 'dist', 'bundle.js');
  const { output } = await bundle.generate({ file, format: 'es', sourcemap: true, inlineDynamicImports: true });
  place(file, output[0].code, output[0].map);
}

function bundledByEsbuild(folder, entry) {
  const options = ['--bundle', '--format=esm', '--packages=external', '--platform=node', '--outfile=dist/bundle.js'];
  esbuild(folder, options, [path.join('build', entry)]);
  placeAgain(path.join(folder, 'dist', 'bundle.js'));
}

// ---------------------------------------------------------------------------------------------
// The third step: dist/bundle.js to dist/bundle.min.js.
// ---------------------------------------------------------------------------------------------

async function minifiedByTerser(folder) {
  const { minify } = require('terser');
  const text = fs.readFileSync(path.join(folder, 'dist', 'bundle.js'), 'utf8');
  const sourceMap = { filename: 'bundle.min.js', includeSources: true };
  const { code, map } = await minify({ 'bundle.js': text }, { module: true, sourceMap });
  place(path.join(folder, 'dist', 'bundle.min.js'), code, map);
}

function minifiedByEsbuild(folder) {
  esbuild(folder, ['--minify', '--outfile=dist/bundle.min.js', '--target=es2022'], ['dist/bundle.js']);
  placeAgain(path.join(folder, 'dist', 'bundle.min.js'));
}

// ---------------------------------------------------------------------------------------------
// The builds.
// ---------------------------------------------------------------------------------------------

// The maps of the modules by the names of the bundle's sources. A source that no module's file is for has none.
function innersOf(folder) {
  const { sources } = JSON.parse(fs.readFileSync(path.join(folder, 'dist', 'bundle.js.map'), 'utf8'));
  const files = sources.map((source) => [source, `${path.join(folder, 'dist', source)}.map`]);
  return new Map(files.filter(([, file]) => fs.existsSync(file)));
}

async function built(name, folder, entry, [first, second, third]) {
  await first(folder);
  await second(folder, entry);
  await third(folder);
  const dist = path.join(folder, 'dist');
  return { name, bundle: path.join(dist, 'bundle.js.map'), minified: path.join(dist, 'bundle.min.js.map'), inners: innersOf(folder) };
}

// The build in examples/, whose paths are taken from above that folder.
function example() {
  const dist = path.join(ROOT, 'examples', 'chain', 'dist');
  const files = [...filesIn(path.join(ROOT, 'examples', 'chain', 'modules.list'))];
  const inners = new Map(files.map(([name, file]) => [name, path.join(ROOT, file)]));
  return { name: 'examples/chain', bundle: path.join(dist, 'bundle.js.map'), minified: path.join(dist, 'bundle.min.js.map'), inners };
}

const WAYS = [
  ['TypeScript, rollup, terser', byTypeScript, byRollup, minifiedByTerser],
  ['TypeScript, esbuild, esbuild', byTypeScript, bundledByEsbuild, minifiedByEsbuild],
  ['Babel, rollup, esbuild', byBabel, byRollup, minifiedByEsbuild],
  ['Babel, esbuild, terser', byBabel, bundledByEsbuild, minifiedByTerser],
  ['esbuild, rollup, terser', byEsbuild, byRollup, minifiedByTerser],
];

// Each build in turn, made below the folder.
async function* builds(folder) {
  let number = 0;
  for (const [way, ...steps] of WAYS) {
    for (const [name, entry] of [['examples/chain', 'src/main.ts'], ...TYPED]) {
      const own = path.join(folder, `${(number += 1)}`);
      if (name === 'examples/chain') fs.cpSync(path.join(ROOT, name, 'src'), path.join(own, 'src'), { recursive: true });
      else unpack(name, own);
      yield built(`${name}: ${way}`, own, entry.replace(/^src\/(.*)\.ts$/, '$1.js'), steps);
    }
  }
  const own = path.join(folder, 'lodash');
  const from = folderOf('lodash-es');
  for (const name of filesBelow(from, '.js')) write(path.join(own, 'src', name), fs.readFileSync(path.join(from, name), 'utf8'));
  yield built('lodash-es: terser, rollup, terser', own, 'lodash.js', [byTerser, byRollup, minifiedByTerser]);
}

module.exports = { builds, example };
