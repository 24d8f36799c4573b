// The map files of some packages, and the program that is compared with.
'use strict';

const fs = require('fs');
const path = require('path');
const { execFileSync } = require('child_process');
const { parseArgs } = require('util');

const PACKAGES = ['libjs-jquery', 'node-source-map', 'libjs-bootstrap5', 'node-babel7-debug'];
// The most bytes that a program may print.
const MOST_BYTES = 1 << 30;
// Where ./smap found the program stands in .smap/program, as a path from the top.
const TOP = path.join(__dirname, '..', '..');
const NAMED = path.join(TOP, '.smap', 'program');
const FOUND = fs.existsSync(NAMED) ? path.join(TOP, fs.readFileSync(NAMED, 'utf8').trim()) : NAMED;

// The map files among these, each once. A link counts as the file that it leads to.
function mapsAmong(files) {
  const maps = files.filter((file) => file.endsWith('.map')).map((file) => fs.realpathSync(file));
  return [...new Set(maps)].sort();
}

// The files that a package installed.
function filesOfPackage(name) {
  try {
    return execFileSync('dpkg', ['-L', name], { encoding: 'utf8', stdio: 'pipe' }).split('\n');
  } catch {
    throw new Error(`the package ${name} is not installed`);
  }
}

// The map files of one package.
function mapsOfPackage(name) {
  return mapsAmong(filesOfPackage(name));
}

// The map files of the four packages.
function mapsOfPackages() {
  return mapsAmong(PACKAGES.flatMap(filesOfPackage));
}

// The map files in a folder and in the folders in it.
function mapsIn(folder) {
  return mapsAmong(fs.readdirSync(folder, { recursive: true }).map((name) => path.join(folder, name)));
}

// The program and the map files that the arguments name: `[--program PROGRAM] [FOLDER...]`.
function given() {
  const known = { program: { type: 'string', default: FOUND } };
  const { values, positionals } = parseArgs({ options: known, allowPositionals: true });
  if (!fs.existsSync(values.program)) throw new Error(`there is no ${values.program}; ./smap --help finds it`);
  return { program: values.program, files: positionals.length > 0 ? positionals.flatMap(mapsIn) : mapsOfPackages() };
}

module.exports = { FOUND, MOST_BYTES, given, mapsIn, mapsOfPackage, mapsOfPackages };
