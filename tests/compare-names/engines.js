#!/usr/bin/env node
// Runs a program whose functions all throw in node, Chromium and Firefox, as it is written and as minifiers and bundlers
// build it, and compares the names that `smap rewrite --names` gives with those that the engine printed for what is written.
// README.md beside this file says how.
//
//   node engines.js [--show] [--program PROGRAM] [ENGINE...] [PART OF A BUILD'S NAME...]
'use strict';

const fs = require('fs');
const os = require('os');
const path = require('path');
const { execFileSync } = require('child_process');
const { rollup } = require('rollup');
const { chromium, firefox, posted } = require('../vectors/engines/browsers.js');
const { TERSERS, terserBy, withBabel, withTypescript } = require('./builds.js');
const { sources } = require('./throwing.js');

const MOST_BYTES = 1 << 28;
const ORIGIN = 'http://example.test';
const FOLDER = fs.mkdtempSync(path.join(os.tmpdir(), 'names-'));
const PREPARE = 'Error.stackTraceLimit = 50;';

// Files of a build by name, each with its text and its map.
function read(folder) {
  const names = fs.readdirSync(folder).filter((name) => !name.endsWith('.map'));
  return names.map((name) => {
    const [text, map] = [name, `${name}.map`].map((file) => path.join(folder, file));
    const hasMap = fs.existsSync(map);
    return { name, text: fs.readFileSync(text, 'utf8'), map: hasMap ? JSON.parse(fs.readFileSync(map, 'utf8')) : undefined };
  });
}

function write(folder, files) {
  fs.rmSync(folder, { recursive: true, force: true });
  fs.mkdirSync(folder);
  for (const { name, text, map } of files) {
    fs.writeFileSync(path.join(folder, name), text);
    if (map !== undefined) fs.writeFileSync(path.join(folder, `${name}.map`), JSON.stringify(map));
  }
}

const WRITTEN = path.join(FOLDER, 'written');

function esbuildBy(...words) {
  return () => {
    const out = path.join(FOLDER, 'out');
    const script = words.includes('--format=iife') ? [] : ['--out-extension:.js=.mjs'];
    const always = ['--bundle', '--sourcemap', `--outdir=${out}`, '--log-level=error'];
    execFileSync('esbuild', [path.join(WRITTEN, 'main.mjs'), ...always, ...script, ...words]);
    const files = read(out);
    fs.rmSync(out, { recursive: true });
    return files;
  };
}

function rollupBy(options) {
  return async () => {
    const bundle = await rollup({ input: path.join(WRITTEN, 'main.mjs'), onwarn() {} });
    const names = { entryFileNames: '[name].mjs', chunkFileNames: '[name]-[hash].mjs' };
    const { output } = await bundle.generate({ sourcemap: true, ...names, ...options });
    const chunks = output.filter(({ type }) => type === 'chunk');
    return chunks.map(({ fileName, code, map }) => ({ name: fileName, text: code, map }));
  };
}

// The program file by file, or what another tool has made of it, put to these tools in turn.
const written = () => read(WRITTEN);
const then = (first, ...tools) => async () => {
  const files = await first();
  for (const file of files) {
    for (const tool of tools) Object.assign(file, await tool(file), { name: file.name });
  }
  return files;
};

const one = { format: 'es', inlineDynamicImports: true };
const script = { format: 'iife', inlineDynamicImports: true, entryFileNames: '[name].js' };
const most = { passes: 3, ecma: 2020, hoist_props: true, unsafe_arrows: true };
const kept = ['--supported:async-generator=true', '--supported:for-await=true'];
const BUILDS = {
  'esbuild-minify': esbuildBy('--minify', '--format=esm'),
  'esbuild-iife': esbuildBy('--minify', '--format=iife'),
  'esbuild-chunks': esbuildBy('--minify', '--format=esm', '--splitting'),
  'esbuild-identifiers': esbuildBy('--minify-identifiers', '--format=esm'),
  'esbuild-kept': esbuildBy('--minify-syntax', '--minify-whitespace', '--format=esm'),
  'esbuild-keep-names': esbuildBy('--minify', '--keep-names', '--format=iife'),
  'esbuild-es2017': esbuildBy('--minify', '--format=iife', '--target=es2017', ...kept),
  'esbuild, terser': then(esbuildBy('--format=esm'), terserBy({ module: true })),
  terser: then(written, terserBy({ module: true })),
  'terser-mangle': then(written, terserBy({ ...TERSERS['terser --mangle'], module: true })),
  'terser-kept': then(written, terserBy({ module: true, mangle: false })),
  'rollup, terser': then(rollupBy(one), terserBy({ module: true, compress: most })),
  'rollup-iife, terser': then(rollupBy(script), terserBy({ toplevel: true })),
  'rollup-chunks, terser': then(rollupBy({ format: 'es' }), terserBy({ module: true })),
  'tsc-es2017, terser': then(written, (file) => withTypescript(file, 'ES2017', 'ESNext'), terserBy({ module: true })),
  'tsc-es5, terser': then(written, (file) => withTypescript(file, 'ES5', 'ESNext'), terserBy({ module: true })),
  'babel, terser': then(written, (file) => withBabel(file, false), terserBy({ module: true })),
};

const page = (build, next) => `<!DOCTYPE html><meta charset="utf-8"><script>${PREPARE}
globalThis.report = async (text) => {
  await fetch('/report', { method: 'POST', body: text });
  location = '/${next}/page.html';
};</script><script ${build.isModule ? 'type="module" ' : ''}src="/${build.name}/${build.main}"></script>`;

function browse(start, builds) {
  const given = (url) => {
    const [name, file] = new URL(url).pathname.slice(1).split('/');
    const at = builds.findIndex((build) => build.name === name);
    if (at < 0 || !url.startsWith(ORIGIN)) return null;
    if (file === 'page.html') return ['text/html', page(builds[at], builds[at + 1]?.name)];
    return ['text/javascript; charset=utf-8', fs.readFileSync(path.join(FOLDER, name, file), 'utf8')];
  };
  return posted(start, `${ORIGIN}/${builds[0].name}/page.html`, given, builds.length);
}

function run({ name, main }) {
  const text = `${PREPARE} globalThis.report = (text) => process.stdout.write(text);
    import(${JSON.stringify(path.join(FOLDER, name, main))});`;
  return execFileSync(process.execPath, ['-e', text], { encoding: 'utf8', maxBuffer: MOST_BYTES });
}

const ENGINES = {
  node: (builds) => builds.map(run),
  chromium: (builds) => browse(chromium, builds),
  firefox: (builds) => browse(firefox, builds),
};

// What a line says of a frame: its function, file and line.
function frameOf(line) {
  const [, v8, gecko, url, number] = /^(?: +at (?:(.*) \()?|(.*?)@)(.*):(\d+):\d+\)?$/.exec(line) ?? [];
  if (url === undefined) return undefined;
  const name = v8 ?? gecko ?? (url.startsWith('async ') ? 'async ' : '');
  return { name, at: `${path.basename(url)}:${number}`, isAwaiting: name.startsWith('async ') };
}

// The name alone, without what V8 prints around it.
const bare = (name) => name.replace(/^(async )?(new )?/, '').replace(/ \[as .*\]$/, '').replace(/^.*\.(?=[^.<>]+$)/, '');

// Names that bundlers and compilers give: to default exports, to private methods, to their own functions.
const TOOLS = /^(part_\d(_default)?|n_fn|_n2|tryCatch|_throw|_next|asyncGeneratorStep|maybeInvokeDelegate|resume)$/;

// What the name of a frame is beside that which the engine printed for what is written, if it printed such a frame.
function judged(was, is, truth) {
  if (truth !== undefined && bare(is) === bare(truth)) return was === is ? 'same' : 'right';
  if (was === is) return 'kept';
  if (TOOLS.test(bare(is))) return "a tool's";
  const [, held, number] = /^(held|object)(\d+)$/i.exec(bare(is)) ?? [];
  if (held === undefined || truth === undefined) return 'wrong';
  const isOwn = bare(truth).toLowerCase() === `own${number}`;
  if (held === 'object') return isOwn || bare(truth).length === 1 ? "an object's" : 'wrong';
  return isOwn ? "a variable's" : 'wrong';
}

// Tells of each frame of a build's stack that has been rewritten, beside the stack of the program as it is written. It
// stands for the frame of its line there, or, where a tool has mapped another line, as it maps no `await`, for the next
// one; and for those behind that the build has none of, as they were put into its function: so the last of them has its
// name, but for those that await it.
function compared(before, after, written, tell) {
  const truths = written.map(frameOf).filter((frame) => frame !== undefined && frame.at.includes('.mjs:'));
  const lines = after.map((line, i) => ({ line, was: frameOf(before[i]), is: frameOf(line) }));
  const frames = lines.filter(({ was, is }) => is !== undefined && was.at !== is.at);
  let next = 0;
  for (const frame of frames) {
    const index = truths.findIndex(({ at }, k) => k >= next && at === frame.is.at);
    if (index >= 0) [frame.index, next] = [index, index + 1];
  }
  next = 0;
  frames.forEach((frame, i) => {
    const { was, is } = frame;
    const limit = frames.slice(i + 1).find(({ index }) => index !== undefined)?.index ?? truths.length;
    if (frame.index === undefined && next < limit && !TOOLS.test(bare(is.name))) frame.index = next;
    if (frame.index !== undefined) next = frame.index + 1;
    const isLast = frames[i + 1] === undefined || frames[i + 1].index !== undefined;
    const behind = frame.index === undefined ? [] : truths.slice(frame.index + 1, isLast ? limit : next);
    const awaiting = behind.findIndex(({ isAwaiting }) => isAwaiting);
    const truth = (awaiting < 0 ? behind : behind.slice(0, awaiting)).at(-1) ?? truths[frame.index];
    tell(judged(was.name, is.name, truth?.name), `${was.name} in ${frame.line.trim()}, not ${truth?.name}`);
  });
}

const MARK = '== ';

function rewritten(program, name, stacks) {
  const input = stacks.map((stack) => `${MARK}\n${stack}\n`).join('');
  const places = `*/${name}/=${path.join(FOLDER, name)}/`;
  const output = execFileSync(program, ['rewrite', '--names', places], { input, encoding: 'utf8', maxBuffer: MOST_BYTES });
  return output.split(`${MARK}\n`).slice(1);
}

async function main() {
  const words = process.argv.slice(2);
  const at = words.indexOf('--program');
  const program = at < 0 ? path.join(__dirname, '../../smap') : words.splice(at, 2)[1];
  const shows = words.includes('--show');
  const asked = Object.keys(ENGINES).filter((engine) => words.includes(engine));
  const parts = words.filter((word) => word !== '--show' && !asked.includes(word));
  write(WRITTEN, Object.entries(sources()).map(([name, text]) => ({ name, text })));
  const builds = [{ name: 'written', main: 'main.mjs', isModule: true }];
  for (const [way, make] of Object.entries(BUILDS)) {
    if (parts.length > 0 && !parts.some((part) => way.includes(part))) continue;
    const name = way.replaceAll(', ', '-');
    const files = await make();
    write(path.join(FOLDER, name), files);
    const { name: main } = files.find((file) => file.name.startsWith('main.'));
    builds.push({ name, main, isModule: main.endsWith('.mjs') });
  }
  const counts = {};
  for (const engine of asked.length > 0 ? asked : Object.keys(ENGINES)) {
    const [truths, ...all] = (await ENGINES[engine](builds)).map((text) => JSON.parse(text));
    counts[engine] = {};
    all.forEach((stacks, i) => {
      const { name } = builds[i + 1];
      const kinds = {};
      rewritten(program, name, stacks).forEach((text, k) => {
        const [before, after, written] = [stacks[k], text, truths[k]].map((stack) => stack.split('\n'));
        const tell = (kind, what) => {
          kinds[kind] = (kinds[kind] ?? 0) + 1;
          counts[engine][kind] = (counts[engine][kind] ?? 0) + 1;
          if (shows && !['same', 'right'].includes(kind)) console.log(`${engine} ${name} ${k}: ${kind}: ${what}`);
        };
        if (before[0] === written[0]) compared(before, after, written, tell);
        else tell('wrong', `${before[0]} was thrown, not ${written[0]}`);
      });
      console.log(engine, name, JSON.stringify(kinds));
    });
  }
  for (const [engine, kinds] of Object.entries(counts)) console.log(engine, JSON.stringify(kinds));
  process.exitCode = Object.values(counts).every((kinds) => kinds.right > 0 && kinds.wrong === undefined) ? 0 : 1;
}

main().finally(() => fs.rmSync(FOLDER, { recursive: true }));
