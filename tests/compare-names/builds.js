'use strict';
// Builds the sources of Debian's packages by several tools, each with a map. What a tool does not take is left out.

const fs = require('fs');
const os = require('os');
const path = require('path');
const { execFileSync } = require('child_process');

const NODE = '/usr/share/nodejs';
const WEB = '/usr/share/javascript';

// Files of one source each. Those that are not there are left out, and said.
const FILES = [
  `${WEB}/underscore/underscore.js`, `${WEB}/jquery/jquery.js`, `${WEB}/angular.js/angular.js`, `${WEB}/backbone/backbone.js`,
  `${WEB}/moment/moment.js`, `${WEB}/leaflet/leaflet.js`, `${WEB}/raphael/raphael.js`, `${WEB}/prototype/prototype.js`,
  `${WEB}/three/three.js`, `${WEB}/mootools/mootools.js`, `${WEB}/codemirror/lib/codemirror.js`, `${WEB}/vue/vue.js`,
  `${NODE}/acorn/dist/acorn.js`, `${NODE}/acorn/dist/acorn.mjs`, `${NODE}/lodash/lodash.js`, `${NODE}/@babel/parser/lib/index.js`,
  `${NODE}/three/build/three.js`, `${NODE}/three/build/three.module.js`, `${NODE}/react-dom/cjs/react-dom.development.js`,
  `${NODE}/react/cjs/react.development.js`, `${NODE}/vue/dist/vue.esm.js`, `${NODE}/vue/dist/vue.global.js`,
  `${NODE}/vue/dist/vue.runtime.esm-bundler.js`, `${NODE}/d3/dist/d3.js`, `${NODE}/immutable/dist/immutable.js`,
  `${NODE}/ramda/dist/ramda.js`, `${NODE}/js-yaml/dist/js-yaml.js`, `${NODE}/marked/lib/marked.cjs`, `${NODE}/marked/lib/marked.esm.js`,
  `${NODE}/redux/dist/redux.js`, `${NODE}/knockout/build/output/knockout-latest.debug.js`, `${NODE}/bluebird/js/browser/bluebird.js`,
  `${NODE}/async/dist/async.js`, `${NODE}/async/dist/async.mjs`, `${NODE}/esprima/dist/esprima.js`, `${NODE}/chai/chai.js`,
  `${NODE}/handlebars/dist/handlebars.js`, `${NODE}/terser/dist/bundle.min.js`, `${NODE}/pdfjs-dist/build/pdf.js`,
  `${NODE}/rollup/dist/shared/rollup.js`, `${NODE}/preact/dist/preact.mjs`,
  `${WEB}/katex/katex.js`, `${WEB}/pdf/web/viewer.js`, `${WEB}/openlayers/OpenLayers.js`, `${WEB}/vue/vue.runtime.esm.js`,
  `${WEB}/codemirror/keymap/vim.js`, `${WEB}/leaflet/leaflet.esm.js`, `${WEB}/angular.js/angular-animate.js`,
  `${NODE}/mustache/mustache.js`, `${NODE}/css-tree/dist/csstree.js`, `${NODE}/katex/dist/katex.js`,
];

// Modules that are bundled with all that they import.
const MODULES = [
 `${NODE}/lodash-es/lodash.js`, `${NODE}/parse5/dist/index.js`, `${NODE}/postcss/lib/postcss.js`,
  `${NODE}/css-tree/lib/index.js`, `${NODE}/graphql/index.js`, `${NODE}/yargs/index.cjs`, `${NODE}/acorn-walk/dist/walk.mjs`,
  `${NODE}/escodegen/escodegen.js`, `${NODE}/source-map/source-map.js`, `${NODE}/elliptic/lib/elliptic.js`, `${NODE}/jszip/lib/index.js`,
  `${NODE}/ramda/src/index.js`, `${NODE}/mqtt/lib/connect/index.js`, `${NODE}/nunjucks/index.js`, `${NODE}/redux/es/redux.js`,
];

function optional(name) {
  try {
    return require(name);
  } catch {
    return undefined;
  }
}

const terser = optional('terser');
const rollup = optional('rollup');
const webpack = optional('webpack');
const typescript = optional('typescript');
const babel = optional('@babel/core');

const isModule = (text) => /^\s*(import|export)\b/m.test(text);

function terserBy(options) {
  return async ({ text, name, map }) => {
    const sourceMap = { includeSources: true, ...(map === undefined ? {} : { content: JSON.stringify(map) }) };
    const made = await terser.minify({ [name]: text }, { module: isModule(text), sourceMap, ...options });
    return { text: made.code, map: JSON.parse(made.map) };
  };
}

const TERSERS = {
  terser: {},
  'terser --toplevel': { toplevel: true, compress: { passes: 3, ecma: 2020, hoist_props: true, unsafe_arrows: true } },
  'terser --mangle': { compress: false, mangle: true },
};

function esbuildBy(...words) {
  return ({ file, folder }) => {
    const out = path.join(folder, 'out.js');
    fs.rmSync(out, { force: true });
    execFileSync('esbuild', [file, '--sourcemap', `--outfile=${out}`, '--log-level=silent', ...words], { stdio: 'pipe' });
    return { text: fs.readFileSync(out, 'utf8'), map: JSON.parse(fs.readFileSync(`${out}.map`, 'utf8')) };
  };
}

function withTypescript({ text, name }, target, module = 'CommonJS') {
  const { ScriptTarget, ModuleKind, transpileModule } = typescript;
  const compilerOptions = { sourceMap: true, inlineSources: true, target: ScriptTarget[target], module: ModuleKind[module], allowJs: true };
  const made = transpileModule(text, { fileName: name, compilerOptions });
  return { text: made.outputText, map: JSON.parse(made.sourceMapText), name };
}

function withBabel({ text, name }, modules = isModule(text) ? 'commonjs' : false) {
  const presets = [[require('@babel/preset-env'), { targets: 'ie 11', modules }]];
  const made = babel.transformSync(text, { filename: name, presets, sourceMaps: true, compact: false, configFile: false, babelrc: false, sourceType: 'unambiguous' });
  return { text: made.code, map: made.map, name };
}

async function withRollup({ file }) {
  const resolver = {
    name: 'resolver',
    resolveId(id, from) {
      if (from === undefined) return id;
      const near = path.resolve(path.dirname(from), id);
      const found = [near, `${near}.js`, `${near}/index.js`, `${NODE}/${id}/src/index.js`].find((it) => fs.existsSync(it) && fs.statSync(it).isFile());
      return found ?? false;
    },
  };
  const bundle = await rollup.rollup({ input: file, plugins: [resolver], onwarn() {} });
  const { output } = await bundle.generate({ format: 'es', sourcemap: true });
  return { text: output[0].code, map: output[0].map, name: 'bundle.js' };
}

function withWebpack({ file, folder }) {
  const out = path.join(folder, 'webpack');
  fs.rmSync(out, { recursive: true, force: true });
  return new Promise((done, failed) => {
    webpack({
      mode: 'production', devtool: 'source-map', entry: file, output: { path: out, filename: 'main.js' }, target: 'node',
      resolve: { modules: [NODE] }, performance: { hints: false },
    }, (error, stats) => {
      if (error || stats.hasErrors()) failed(error ?? new Error(String(stats.toJson().errors[0].message).slice(0, 200)));
      else done({ text: fs.readFileSync(path.join(out, 'main.js'), 'utf8'), map: JSON.parse(fs.readFileSync(path.join(out, 'main.js.map'), 'utf8')) });
    });
  });
}

const then = (first, second) => async (source) => second(await first(source));

// What is made of a file.
function ofFile() {
  const all = {
    'esbuild --minify': esbuildBy('--minify'),
    'esbuild --minify --bundle': esbuildBy('--minify', '--bundle', '--platform=node', '--format=cjs'),
    'esbuild --minify-identifiers': esbuildBy('--minify-identifiers'),
  };
  for (const [name, options] of Object.entries(TERSERS)) all[name] = terserBy(options);
  if (typescript) all['tsc, terser'] = then((source) => withTypescript(source, 'ES5'), terserBy({}));
  if (babel) all['babel, terser'] = then(withBabel, terserBy({}));
  if (webpack) all.webpack = withWebpack;
  return all;
}

// What is made of modules.
function ofModules() {
  const all = {
    'esbuild --bundle': esbuildBy('--minify', '--bundle', '--platform=node', '--format=esm'),
    'esbuild --bundle iife': esbuildBy('--minify', '--bundle', '--platform=node', '--format=iife', '--target=es2017'),
  };
  if (rollup) {
    all['rollup, terser'] = then(withRollup, terserBy({ toplevel: true }));
    all['rollup, terser --module'] = then(withRollup, terserBy({ module: true, compress: { passes: 2 } }));
  }
  if (webpack) all.webpack = withWebpack;
  return all;
}

async function* builds(files, modules) {
  const folder = fs.mkdtempSync(path.join(os.tmpdir(), 'names-'));
  try {
    for (const [list, ways] of [[files, ofFile()], [modules, ofModules()]]) {
      for (const file of list) {
        if (!fs.existsSync(file)) {
          yield { name: file, left: 'is not there' };
          continue;
        }
        const source = { file, folder, name: path.basename(file), text: fs.readFileSync(file, 'utf8') };
        for (const [way, make] of Object.entries(ways)) {
          const name = `${path.relative('/usr/share', file)} by ${way}`;
          try {
            yield { name, source, ...await make(source) };
          } catch (error) {
            yield { name, left: String(error.message).split('\n')[0].slice(0, 120) };
          }
        }
      }
    }
  } finally {
    fs.rmSync(folder, { recursive: true, force: true });
  }
}

module.exports = { builds, terserBy, withBabel, withTypescript, FILES, MODULES, TERSERS };
