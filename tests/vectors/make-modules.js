#!/usr/bin/env node
// Makes the rows of traces of modules that lie in folders of three depths: what node 20 prints of the errors that modules/main.ts
// meets, plain and in colours, as CommonJS and as ES modules.
//
//   node make-modules.js     writes its rows of smap_rows and prints the counts
//
// Nothing here is made from smap's own code or output: the compiler of TypeScript wrote the maps, and the original places are
// those that node prints itself with --enable-source-maps. The folder that they lie in stands as /srv/app.
'use strict';

const fs = require('fs');
const os = require('os');
const path = require('path');
const { spawnSync } = require('child_process');
const { stripVTControlCharacters } = require('util');
const typescript = require('typescript');
const { putFile, putRows, row, words } = require('./rows.js');

const SOURCES = path.join(__dirname, 'modules');
const FILES = ['main', 'util/price', 'util/deep/sum'];
const KINDS = ['plain', 'uncaught', 'properties', 'cause', 'many', 'rejection', 'stack', 'nested', 'timer'];
const PIECES = ['8192/0', '7/0', '1/0'];

function insist(holds, what) {
  if (!holds) throw new Error(what);
}

// Compiles the modules into dist/, and puts their maps into data/.
function compile(top, name, module) {
  for (const file of FILES) {
    fs.mkdirSync(path.dirname(path.join(top, 'src', file)), { recursive: true });
    fs.copyFileSync(path.join(SOURCES, `${file}.ts`), path.join(top, 'src', `${file}.ts`));
  }
  const { ES2022 } = typescript.ScriptTarget;
  const options = { module, target: ES2022, lib: ['lib.es2022.d.ts', 'lib.dom.d.ts'], sourceMap: true, rootDir: path.join(top, 'src'), outDir: path.join(top, 'dist'), types: [] };
  const program = typescript.createProgram([path.join(top, 'src', 'main.ts')], options);
  insist(typescript.getPreEmitDiagnostics(program).length === 0, 'the modules are not accepted');
  program.emit();
  if (name === 'es') fs.writeFileSync(path.join(top, 'dist', 'package.json'), '{"type":"module"}');
  for (const file of FILES) putFile(`modules/${name}/${file}.js.map`, fs.readFileSync(path.join(top, 'dist', `${file}.js.map`), 'utf8'));
}

function printed(top, kind, colours, ...options) {
  const main = path.join(top, 'dist', 'main.js');
  const { stderr } = spawnSync(process.execPath, [...options, main, kind], { cwd: top, encoding: 'utf8', env: { PATH: process.env.PATH, ...colours } });
  insist(stderr.includes(top), `${kind} prints no place: ${stderr}`);
  return stderr.replaceAll(top, '/srv/app');
}

const PLACE = /(?:file:\/\/)?\/srv\/app\/[\w/]+\.[jt]s:\d+:\d+/g;

// A text with node's own places, one after another, in place of its own.
function rewritten(text, own, before) {
  const places = stripVTControlCharacters(own).match(PLACE);
  const count = text.match(PLACE).length;
  insist(places.length === count && places.every((place) => /\.ts:/.test(place)), 'node prints other places');
  return [text.replace(PLACE, () => before + places.shift()), count];
}

const total = { texts: 0, places: 0 };

function rowsOf(name, module, before, given) {
  const top = fs.mkdtempSync(path.join(os.tmpdir(), 'modules-'));
  try {
    compile(top, name, module);
    return KINDS.flatMap((kind) => {
      const own = printed(top, kind, { NO_COLOR: '1' }, '--enable-source-maps');
      return [{ NO_COLOR: '1' }, { FORCE_COLOR: '1' }].flatMap((colours) => {
        const text = printed(top, kind, colours);
        const [written, count] = rewritten(stripVTControlCharacters(text), own, before);
        total.texts += 1;
        total.places += count;
        const command = words('rewrite', '--anywhere', ...given, ...(colours.FORCE_COLOR ? ['--strip-ansi'] : []), `${before}/srv/app/dist/=modules/${name}/`);
        return PIECES.map((device) => row(['run_over', device, device, device, command, text], [0, written, '']));
      });
    });
  } finally {
    fs.rmSync(top, { recursive: true });
  }
}

putRows('What node prints of ES modules', __filename, rowsOf('es', typescript.ModuleKind.ES2022, 'file://', []));
console.log(`${total.texts} texts, ${total.places} places`);
