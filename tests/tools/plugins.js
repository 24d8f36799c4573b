'use strict';
// The plugin of rollup and the loader of webpack in examples/plugins, run: node plugins.js. What comes out has to lead to the original of a
// word that stands once in both. A bundler that is not on this machine is said to be so. Modules are looked for where NODE_PATH says.
const assert = require('node:assert');
const fs = require('node:fs');
const os = require('node:os');
const path = require('node:path');
const smap = require('smap');
const { asDebiansNode } = require('./tools.js');

const examples = path.join(__dirname, '../../examples');
const typed = 'interface P { x: number }\n\n// Twice as much.\nexport const double = (p: P): number => p.x * 2;\nconsole.log(double({ x: 0x5eed }));\n';

// Where a word of a text stands: its line from 1 and its column.
function placeOf(text, word) {
  assert.strictEqual(text.split(word).length, 2, `${word} stands once`);
  const lines = text.slice(0, text.indexOf(word)).split('\n');
  return { line: lines.length, column: lines[lines.length - 1].length };
}

// A word of the bundle leads to this one of its source.
function leads(code, map, word, [source, text, original]) {
  const found = smap.originalPositionFor(new smap.TraceMap(map), placeOf(code, word));
  assert.strictEqual(path.basename(found.source), source);
  assert.deepStrictEqual({ line: found.line, column: found.column }, placeOf(text, original));
}

const plugins = {
  rollup: async (folder) => {
    const { rollup } = require('rollup');
    const ts = require('typescript');
    const { minify } = require('terser');
    const steps = require(path.join(examples, 'plugins/rollup.js'));
    const compile = (code, id) => {
      const { outputText, sourceMapText } = ts.transpileModule(code, { compilerOptions: { sourceMap: true, target: 'es2020', module: 'es2020' }, fileName: id });
      return { code: outputText, map: sourceMapText };
    };
    const shorten = (code) => minify(code, { module: true, toplevel: true, mangle: false, compress: false, sourceMap: true });
    fs.writeFileSync(path.join(folder, 'a.ts'), typed);
    const bundle = await rollup({ input: path.join(folder, 'a.ts'), plugins: [steps(compile, shorten)] });
    const [{ code, map }] = (await bundle.generate({ format: 'es', sourcemap: true })).output;
    leads(code, map.toString(), '24301', ['a.ts', typed, '0x5eed']);
  },
  webpack: async (folder) => {
    asDebiansNode();
    const webpack = require('webpack');
    const build = path.join(examples, 'chain/build');
    const rule = { test: /\.js$/, use: path.join(examples, 'plugins/webpack.js') };
    const options = { mode: 'production', target: 'node', devtool: 'source-map', entry: path.join(build, 'main.js'), module: { rules: [rule] }, optimization: { minimize: false }, output: { path: folder, filename: 'out.js' } };
    await new Promise((resolve, reject) => {
      webpack(options, (error, stats) => (error || stats.hasErrors() ? reject(error || new Error(stats.toString())) : resolve()));
    });
    const [code, map] = ['out.js', 'out.js.map'].map((name) => fs.readFileSync(path.join(folder, name), 'utf8'));
    const text = fs.readFileSync(path.join(examples, 'chain/src/report.ts'), 'utf8');
    leads(code, map, 'padEnd(', ['report.ts', text, 'padEnd(']);
  },
};

async function run() {
  let count = 0;
  for (const [name, make] of Object.entries(plugins)) {
    const folder = fs.mkdtempSync(path.join(os.tmpdir(), 'plugins-'));
    try {
      await make(folder);
      count += 1;
    } catch (error) {
      const lacking = /Cannot find module '([^']*)'/.exec(error.message);
      if (!lacking) throw error;
      console.log(`not on this machine: ${name} (${lacking[1]})`);
    } finally {
      fs.rmSync(folder, { recursive: true });
    }
  }
  console.log('plugins', count);
}

run();
