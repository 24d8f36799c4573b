#!/usr/bin/env node
// Takes the code of this folder through further steps of a build, each with a map of that step alone:
//
//   preset-react.js                                               -> preset-react.min.js    minified
//   preset-react.js, convert-comments.cjs -> modules.js           -> modules.min.js         bundled, then minified
//
//   node examples/make-steps.js
//
// needs the module terser, and the program esbuild (ESBUILD=PROGRAM where it is not on the PATH). No step knows of the
// map of the one before it: the maps that the comments in the two modules name are not in this folder.
'use strict';

const fs = require('fs');
const path = require('path');
const { execFileSync } = require('child_process');
const { minify } = require('terser');

const ENTRY = `exports.preset = require('./preset-react.js');
exports.convertComments = require('./convert-comments.cjs');
`;

function read(name) {
  return fs.readFileSync(path.join(__dirname, name), 'utf8');
}

function write(name, text) {
  fs.writeFileSync(path.join(__dirname, name), text);
}

// The code without its last line, which names its map.
function codeOf(name) {
  return read(name).replace(/\/\/# sourceMappingURL=.*\s*$/, '');
}

function bundle(to) {
  const options = ['--bundle', '--packages=external', '--platform=node', '--sourcemap', '--sourcefile=entry.js'];
  execFileSync(process.env.ESBUILD ?? 'esbuild', [...options, '--log-level=warning', `--outfile=${to}`], {
    cwd: __dirname,
    input: ENTRY,
    stdio: ['pipe', 'inherit', 'inherit'],
  });
}

async function minifyTo(from, to) {
  const sourceMap = { filename: to, url: `${to}.map`, includeSources: true };
  const { code, map } = await minify({ [from]: codeOf(from) }, { toplevel: true, sourceMap });
  write(to, `${code}\n`);
  write(`${to}.map`, map);
}

async function main() {
  await minifyTo('preset-react.js', 'preset-react.min.js');
  bundle('modules.js');
  await minifyTo('modules.js', 'modules.min.js');
}

main().catch((error) => {
  console.error(error.message);
  process.exitCode = 1;
});
