#!/usr/bin/env node
// Compares what `smap show` writes of map files with the files themselves, both read by other people's
// readers. README.md beside this file says how.
//
//   node compare.js [--program PROGRAM] [FOLDER...]
//
// Nothing here is made from smap's own output.
'use strict';

const fs = require('fs');
const { spawnSync } = require('child_process');
const { isDeepStrictEqual } = require('util');
const codec = require('@jridgewell/sourcemap-codec');
const { linesOf } = require('../vectors/lookup.js');
const { MOST_BYTES, given } = require('../compare-maps/files.js');

// The mappings line by line, up to the last line that holds one.
function withoutEmptyEnd(lines) {
  const used = lines.map((line) => line.map((segment) => Array.from(segment)));
  while (used.length > 0 && used[used.length - 1].length === 0) used.pop();
  return used;
}

// What a regular map states, the names of its sources aside, which `show` resolves.
function statedOf(map, lines) {
  const contents = map.sources.map((_, i) => (map.sourcesContent ?? [])[i] ?? null);
  const ignored = map.ignoreList ?? map.x_google_ignoreList ?? [];
  return {
    mappings: withoutEmptyEnd(lines),
    sources: map.sources.map((source) => source === null),
    names: map.names ?? [],
    file: map.file ?? null,
    contents,
    ignored: [...new Set(ignored)].sort((a, b) => a - b),
  };
}

// The parts in which what is written differs from the file.
function differencesOf(file, written) {
  const map = JSON.parse(fs.readFileSync(file, 'utf8'));
  if ((map.sections ?? null) !== null) throw new Error(`${file}: index maps are not compared here`);
  const own = statedOf(map, linesOf(map.mappings));
  const shown = statedOf(written, codec.decode(written.mappings));
  const parts = Object.keys(own).filter((part) => !isDeepStrictEqual(own[part], shown[part]));
  return { parts, segments: own.mappings.reduce((sum, line) => sum + line.length, 0), same: map.mappings === written.mappings };
}

function main() {
  const { program, files } = given();
  const total = { refused: 0, segments: 0, same: 0, differences: 0 };
  for (const file of files) {
    const { status, stdout, stderr, error } = spawnSync(program, ['show', file], { encoding: 'utf8', maxBuffer: MOST_BYTES });
    if (error) throw error;
    if (status !== 0) {
      console.log(`${file}: status ${status}: ${stderr.trim()}`);
      total.refused += 1;
      continue;
    }
    const { parts, segments, same } = differencesOf(file, JSON.parse(stdout));
    total.segments += segments;
    total.same += same ? 1 : 0;
    total.differences += parts.length > 0 ? 1 : 0;
    if (parts.length > 0) console.log(`${file}: differs in ${parts.join(', ')}`);
  }
  console.log(`files ${files.length}, refused ${total.refused}, mappings ${total.segments}`);
  console.log(`mappings strings that stay as they are ${total.same}`);
  console.log(`files that differ ${total.differences}`);
  if (total.differences + total.refused > 0) process.exitCode = 1;
}

try {
  main();
} catch (error) {
  console.error(error.message);
  process.exitCode = 2;
}
