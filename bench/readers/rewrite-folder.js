#!/usr/bin/env node
// Rewrites a trace line by line over a folder of maps, each of which is read when a frame first names it.
//
//   node rewrite-folder.js trace|mozilla PREFIX=FOLDER/ < TRACE
//
// `trace` is @jridgewell/trace-mapping, `mozilla` is source-map. The map of PREFIX and a rest is the file FOLDER, rest and `.map`.
'use strict';

const fs = require('fs');
const { READERS, answerFrames } = require('./frames.js');

const [how, word] = process.argv.slice(2);
const read = READERS[how]();
const at = word.lastIndexOf('=');
const [prefix, folder] = [word.slice(0, at), word.slice(at + 1)];

function readMap(url) {
  if (!url.startsWith(prefix)) return undefined;
  try {
    return read(fs.readFileSync(`${folder}${url.slice(prefix.length)}.map`, 'utf8'), url);
  } catch (error) {
    if (error.code === 'ENOENT') return undefined;
    throw error;
  }
}

const maps = new Map();
answerFrames((url) => {
  if (!maps.has(url)) maps.set(url, readMap(url));
  return maps.get(url);
});
