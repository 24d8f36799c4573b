#!/usr/bin/env node
// Builds sources of examples/ and of npm by several tools, each with a map: once as they are, into FOLDER/first, and once as another
// release, with a line more, into FOLDER/second. What a tool does not take is left out.
//
//   node builds.js FOLDER
'use strict';

const fs = require('fs');
const path = require('path');
const { execFileSync } = require('child_process');
const MagicString = require('magic-string').default;
const { rollup } = require('rollup');
const terser = require('terser');
const typescript = require('typescript');
const uglify = require('uglify-js');

const EXAMPLES = path.join(__dirname, '..', '..', 'examples');
const NPM_FILES = 60;

function filesIn(folder, end) {
  const all = fs.readdirSync(folder, { recursive: true }).map((name) => path.join(folder, name));
  return all.filter((file) => file.endsWith(end) && fs.statSync(file).size > 2000).sort();
}

function sources() {
  const npm = path.join(execFileSync('npm', ['root', '-g'], { encoding: 'utf8' }).trim(), 'npm', 'lib');
  const own = ['modules.js', 'preset-react.js', 'convert-comments.cjs'].map((name) => path.join(EXAMPLES, name));
  const typed = ['receipt', 'chain/src'].flatMap((name) => filesIn(path.join(EXAMPLES, name), '.ts'));
  return [...own, ...typed, ...filesIn(npm, '.js').slice(0, NPM_FILES)];
}

// The same with a line more, before the first line past the middle at which a statement begins.
function nextRelease(text) {
  const lines = text.split('\n');
  const begins = (line, i) => i >= lines.length >> 1 && /^(async )?(function|const|var|let|class|export|module|exports)\b/.test(line);
  const at = lines.findIndex(begins);
  lines.splice(at < 0 ? 0 : at, 0, 'globalThis.releaseOfThis = 2');
  return lines.join('\n').replace('= 2\n', '= 2;\n');
}

const tsOptions = (target) => ({ sourceMap: true, inlineSources: true, target: typescript.ScriptTarget[target], module: typescript.ModuleKind.CommonJS });

function byTypescript(target) {
  return (text, name) => {
    const { outputText, sourceMapText } = typescript.transpileModule(text, { fileName: name, compilerOptions: tsOptions(target) });
    return { text: outputText, map: sourceMapText };
  };
}

async function byTerser(text, name) {
  const { code, map } = await terser.minify({ [name]: text }, { sourceMap: { includeSources: true }, module: /^\s*(import|export)\b/m.test(text) });
  return { text: code, map };
}

function byUglify(text, name) {
  const { code, map, error } = uglify.minify({ [name]: text }, { sourceMap: { includeSources: true } });
  if (error) throw error;
  return { text: code, map };
}

function byEsbuild(...options) {
  return (text, name) => {
    const loader = name.endsWith('.ts') ? 'ts' : 'js';
    const made = execFileSync('esbuild', ['--sourcemap=inline', `--sourcefile=${name}`, `--loader=${loader}`, ...options], { input: text, encoding: 'utf8', stdio: ['pipe', 'pipe', 'ignore'] });
    const at = made.lastIndexOf('//# sourceMappingURL=');
    return { text: made.slice(0, at), map: Buffer.from(made.slice(made.indexOf('base64,', at) + 7), 'base64').toString() };
  };
}

async function byRollup(text, name) {
  const given = { name: 'given', resolveId: (id) => (id === name ? id : { id, external: true }), load: () => text };
  const bundle = await rollup({ input: name, plugins: [given], onwarn() {} });
  const { output: [{ code, map }] } = await bundle.generate({ format: 'cjs', sourcemap: true });
  return { text: code, map: map.toString() };
}

function byMagicString(hires) {
  return (text, name) => {
    const made = new MagicString(text);
    for (const found of text.matchAll(/\b(const|let) /g)) made.overwrite(found.index, found.index + found[1].length, 'var');
    made.prepend('/* made */\n').append('\n');
    return { text: made.toString(), map: made.generateMap({ source: name, includeContent: true, hires }).toString() };
  };
}

const TOOLS = {
  'typescript-es5': byTypescript('ES5'),
  'typescript-es2020': byTypescript('ES2020'),
  terser: byTerser,
  uglify: byUglify,
  esbuild: byEsbuild(),
  'esbuild-minify': byEsbuild('--minify'),
  rollup: byRollup,
  'magic-string': byMagicString(false),
  'magic-string-hires': byMagicString(true),
};

async function main([folder]) {
  if (!folder) throw new Error('usage: builds.js FOLDER');
  let made = 0;
  for (const release of ['first', 'second']) {
    fs.mkdirSync(path.join(folder, release), { recursive: true });
    for (const [number, file] of sources().entries()) {
      const text = fs.readFileSync(file, 'utf8');
      for (const [tool, build] of Object.entries(TOOLS)) {
        const name = path.basename(file);
        try {
          const built = await build(release === 'first' ? text : nextRelease(text), name);
          const to = path.join(folder, release, `${number}-${name}.${tool}.js`);
          fs.writeFileSync(to, built.text);
          fs.writeFileSync(`${to}.map`, built.map);
          made += 1;
        } catch {
          // The tool does not take it.
        }
      }
    }
  }
  console.log(`builds ${made}`);
}

main(process.argv.slice(2)).catch((error) => {
  console.error(error.message);
  process.exitCode = 2;
});
