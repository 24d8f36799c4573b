'use strict';
// Build tools with the library in node in place of @jridgewell/trace-mapping, beside themselves: node tools.js [NAME..]. Each tool makes its
// maps in two processes, which have to be the same to the byte. One that is not on this machine, and one that does not ask for
// trace-mapping, is said to be so. Modules are looked for where NODE_PATH says.
const assert = require('node:assert');
const { spawnSync } = require('node:child_process');
const fs = require('node:fs');
const Module = require('node:module');
const os = require('node:os');
const path = require('node:path');

const REPLACED = '@jridgewell/trace-mapping';
const examples = path.join(__dirname, '../../examples');
const read = (name) => fs.readFileSync(path.join(examples, name), 'utf8');
const script = 'const f = (x) => x ?? 1;\nexport class A { static b = f(2); async m() { await f(3); } }\n';
const typed = 'interface P { x: number }\nexport const double = (p: P): number => p.x * 2;\nexport class B<T> { constructor(private readonly t: T) {} get(): T { return this.t; } }\n';
const sheet = '.a { color: red;\n  .b & { margin: 0 auto }\n}\n@media (min-width: 1px) { .c { display: flex } }\n';

// What `make` gives of a folder that goes afterwards.
async function inFolder(files, make) {
  const folder = fs.mkdtempSync(path.join(os.tmpdir(), 'tools-'));
  try {
    for (const [name, text] of Object.entries(files)) fs.writeFileSync(path.join(folder, name), text);
    return await make(folder);
  } finally {
    fs.rmSync(folder, { recursive: true });
  }
}

// Runs a script of a package over this library, or trace-mapping, in a folder.
function run(folder, bin, words) {
  const { status, stderr } = spawnSync(process.execPath, ['--require', __filename, bin, ...words], { cwd: folder, encoding: 'utf8' });
  assert.strictEqual(status, 0, stderr);
}

const mapIn = (folder, name) => JSON.parse(fs.readFileSync(path.join(folder, name)));
const binOf = (name, bin) => path.join(path.dirname(require.resolve(`${name}/package.json`)), bin);

// A plugin of rollup that hands each module to Babel and then to terser, with their maps.
const plugins = () => [
  {
    name: 'babel',
    transform: (code, id) => require('@babel/core').transformSync(code, { filename: id, sourceMaps: true, babelrc: false, configFile: false, presets: ['@babel/preset-env'] }),
  },
  { name: 'terser', renderChunk: (code) => require('terser').minify(code, { module: true, sourceMap: true }) },
];

// Debian's readers of coverage ask for source-map, and their next versions for trace-mapping's functions in the place of its methods. So
// here its class is made of these.
function consuming() {
  const trace = require(REPLACED);
  const biases = { undefined: undefined, 1: trace.GREATEST_LOWER_BOUND, 2: trace.LEAST_UPPER_BOUND };
  class SourceMapConsumer {
    constructor(map) {
      this.map = new trace.TraceMap(map);
      ({ resolvedSources: this.sources, sourcesContent: this.sourcesContent } = this.map);
    }
    originalPositionFor({ bias, ...place }) {
      return trace.originalPositionFor(this.map, { ...place, bias: biases[bias] });
    }
    generatedPositionFor({ bias, ...place }) {
      return trace.generatedPositionFor(this.map, { ...place, bias: biases[bias] });
    }
    allGeneratedPositionsFor(place) {
      return trace.allGeneratedPositionsFor(this.map, place);
    }
    sourceContentFor(source) {
      return trace.sourceContentFor(this.map, source);
    }
    destroy() {}
  }
  Object.assign(SourceMapConsumer, { GREATEST_LOWER_BOUND: 1, LEAST_UPPER_BOUND: 2 });
  const load = Module._load;
  Module._load = (name, ...more) => (name === 'source-map' ? { SourceMapConsumer } : load(name, ...more));
}

// Debian's webpack asks node itself where modules lie, which Debian's node alone says.
function asDebiansNode() {
  const { variables, ...config } = process.config;
  const value = { ...config, variables: { ...variables, node_prefix: '/usr', node_relative_path: 'share/nodejs' } };
  if (!variables.node_relative_path) Object.defineProperty(process, 'config', { value });
}

// The maps that each tool makes, by what it is given.
const tools = {
  remapping: () => {
    const remapping = require('@ampproject/remapping');
    const loaded = (name) => (fs.existsSync(path.join(examples, `${name}.map`)) ? read(`${name}.map`) : null);
    const [outer, inner] = [read('preset-react.min.js.map'), read('preset-react.js.map')];
    return [remapping(outer, loaded), remapping([outer, inner], () => null), remapping(outer, loaded, { excludeContent: true, decodedMappings: true })];
  },
  'babel, of code with a map': () => {
    const { transformSync } = require('@babel/core');
    const options = { filename: 'preset-react.js', inputSourceMap: JSON.parse(read('preset-react.js.map')), sourceMaps: true, babelrc: false };
    return [{}, { minified: true, comments: false }].map((more) => transformSync(read('preset-react.js'), { ...options, ...more }).map);
  },
  'babel on the command line': () =>
    inFolder({ 'a.js': script, 'b.js': script }, (folder) => {
      const words = ['a.js', 'b.js', '--presets', '@babel/preset-env', '--source-maps', '--source-root', 'https://e.test/', '--out-file', 'out.js'];
      run(folder, binOf('@babel/cli', 'bin/babel.js'), words);
      return [mapIn(folder, 'out.js.map')];
    }),
  'terser, of code with a map': async () => {
    const { minify } = require('terser');
    const maps = [];
    for (const name of ['preset-react.js', 'modules.js']) {
      const sourceMap = { content: read(`${name}.map`), filename: `${name}.min`, includeSources: true };
      maps.push((await minify(read(name), { module: true, sourceMap })).map);
      maps.push((await minify({ [name]: read(name), 'other.js': script }, { module: true, compress: false, sourceMap: { ...sourceMap, asObject: true } })).map);
    }
    return maps.map((map) => (typeof map === 'string' ? JSON.parse(map) : map));
  },
  'terser on the command line': () =>
    inFolder({ 'in.js': read('preset-react.js'), 'in.js.map': read('preset-react.js.map') }, (folder) => {
      run(folder, binOf('terser', 'bin/terser'), ['in.js', '--module', '-c', '-m', '-o', 'out.js', '--source-map', "content='in.js.map',filename='out.js'"]);
      return [mapIn(folder, 'out.js.map')];
    }),
  'rollup with babel and terser': () =>
    inFolder({ 'a.js': "import { A } from './b.js';\nexport default () => new A();\n", 'b.js': script }, async (folder) => {
      const bundle = await require('rollup').rollup({ input: path.join(folder, 'a.js'), plugins: plugins() });
      const { output } = await bundle.generate({ format: 'es', sourcemap: true });
      const { sources, ...map } = output[0].map;
      return [{ ...map, sources: sources.map((name) => path.basename(name)) }];
    }),
  'typescript, then babel, then terser': async () => {
    const ts = require('typescript');
    const compilerOptions = { sourceMap: true, target: 'es2020', module: 'es2020', inlineSources: true };
    const { outputText, sourceMapText } = ts.transpileModule(typed, { compilerOptions, fileName: 'p.ts' });
    const inputSourceMap = JSON.parse(sourceMapText);
    const options = { filename: 'p.js', inputSourceMap, sourceMaps: true, babelrc: false, configFile: false, presets: ['@babel/preset-env'] };
    const { code, map } = require('@babel/core').transformSync(outputText, options);
    const minified = await require('terser').minify(code, { sourceMap: { content: map, includeSources: true } });
    return [map, JSON.parse(minified.map)];
  },
  'magic-string': () => {
    const MagicString = require('magic-string');
    const { TraceMap, decodedMappings } = require(REPLACED);
    const text = new (MagicString.default || MagicString)(script).overwrite(6, 7, 'long').append('//');
    const maps = [text.generateDecodedMap({ source: 'a.js', hires: true }), text.generateMap()].map((map) => new TraceMap(map));
    return maps.map((map) => ({ sources: map.sources, mappings: decodedMappings(map) }));
  },
  'webpack with terser': () =>
    inFolder({ 'a.js': "import { A } from './b.js';\nconsole.log(new A());\n", 'b.js': script }, async (folder) => {
      asDebiansNode();
      const webpack = require('webpack');
      const options = { mode: 'production', devtool: 'source-map', context: folder, entry: './a.js', output: { path: folder, filename: 'out.js' } };
      await new Promise((resolve, reject) => {
        webpack(options, (error, stats) => (error || stats.hasErrors() ? reject(error || new Error(stats.toString())) : resolve()));
      });
      return [mapIn(folder, 'out.js.map')];
    }),
  'istanbul-lib-source-maps, as it asks from 5.0 on': async () => {
    const { createInstrumenter } = require('istanbul-lib-instrument');
    const { createCoverageMap } = require('istanbul-lib-coverage');
    consuming();
    const { createSourceMapStore } = require('istanbul-lib-source-maps');
    const made = [];
    for (const name of ['preset-react.js', 'preset-react.min.js', 'modules.js']) {
      const instrumenter = createInstrumenter({ esModules: true });
      instrumenter.instrumentSync(read(name), path.join(examples, name), JSON.parse(read(`${name}.map`)));
      const coverage = createCoverageMap({});
      coverage.addFileCoverage(instrumenter.lastFileCoverage());
      made.push((await createSourceMapStore().transformCoverage(coverage)).toJSON());
    }
    return made;
  },
  'v8-to-istanbul, as it asks from 9.0 on': async () => {
    consuming();
    const converting = require('v8-to-istanbul');
    const made = [];
    for (const name of ['preset-react.js', 'preset-react.min.js', 'modules.js']) {
      const source = read(name);
      const converter = converting(path.join(examples, name), 0, { source, sourceMap: { sourcemap: JSON.parse(read(`${name}.map`)) } });
      await converter.load();
      const ranges = [...Array(12).keys()].map((i) => ({ startOffset: i * 37, endOffset: source.length - i * 41, count: i % 3 }));
      converter.applyCoverage(ranges.map((range, i) => ({ functionName: i ? `f${i}` : '', ranges: [range], isBlockCoverage: true })));
      made.push(converter.toIstanbul());
    }
    return made;
  },
  typescript: () => [JSON.parse(require('typescript').transpileModule(typed, { compilerOptions: { sourceMap: true }, fileName: 'p.ts' }).sourceMapText)],
  rollup: () =>
    inFolder({ 'a.js': "import { A } from './b.js';\nexport default () => new A();\n", 'b.js': script }, async (folder) => {
      const bundle = await require('rollup').rollup({ input: path.join(folder, 'a.js') });
      return [{ mappings: (await bundle.generate({ sourcemap: true })).output[0].map.mappings }];
    }),
  postcss: () => {
    const { css, map } = require('postcss')([]).process(sheet, { from: 'a.css', to: 'b.css', map: { inline: false } });
    assert.ok(css);
    return [map.toJSON()];
  },
  'uglify-js': () => [JSON.parse(require('uglify-js').minify(read('preset-react.js'), { sourceMap: { content: read('preset-react.js.map') } }).map || '{}')],
};

// The map of the text of this. An index map has a list of ignored sources here, and has none in trace-mapping before 0.3.18.
const plain = (map) => {
  const { ignoreList, ...rest } = JSON.parse(JSON.stringify(map));
  return ignoreList && ignoreList.length ? { ignoreList, ...rest } : rest;
};

// With this file before them, tools find the library where they look for trace-mapping, which is counted in the file ASKED.
if (process.env.ASKED) {
  const resolve = Module._resolveFilename;
  Module._resolveFilename = (name, ...more) => {
    if (name === REPLACED) fs.appendFileSync(process.env.ASKED, 'x');
    return resolve.call(Module, name === REPLACED && process.env.IN_PLACE ? 'smap' : name, ...more);
  };
}

async function made(name) {
  const maps = await tools[name]();
  console.log(JSON.stringify(maps.map(plain)));
}

// What a tool makes in a process of its own, and how often it asked for trace-mapping. Null where a module is not on this machine.
function makes(name, inPlace) {
  const asked = path.join(os.tmpdir(), `asked-${process.pid}`);
  fs.writeFileSync(asked, '');
  const env = { ...process.env, ASKED: asked, IN_PLACE: inPlace };
  const { status, stdout, stderr } = spawnSync(process.execPath, [__filename, '--make', name], { env, encoding: 'utf8', maxBuffer: 2 ** 28 });
  const times = fs.statSync(asked).size;
  fs.unlinkSync(asked);
  const lacking = /Cannot find module '([^']*)'/.exec(stderr);
  if (status !== 0 && lacking && !inPlace) return { lacking: lacking[1] };
  assert.strictEqual(status, 0, `${name}: ${stderr}`);
  return { text: stdout, times };
}

function compare(names) {
  let count = 0;
  for (const name of names) {
    const own = makes(name, '');
    if (own.lacking) {
      console.log(`not on this machine: ${name} (${own.lacking})`);
      continue;
    }
    const ours = makes(name, 'yes');
    assert.strictEqual(ours.text, own.text, name);
    const maps = JSON.parse(ours.text).length;
    if (ours.times) count += maps;
    console.log(ours.times ? `the same: ${name}, ${maps}` : `does not ask for trace-mapping: ${name}`);
  }
  console.log('tools', count);
}

if (require.main === module && process.argv[2] === '--make') made(process.argv[3]);
else if (require.main === module) compare(process.argv.length > 2 ? process.argv.slice(2) : Object.keys(tools));

module.exports = { asDebiansNode };
