#!/usr/bin/env node
// Makes many maps of a real one, each of some of its lines, without contents.
//
//   node cut-maps.js MAP COUNT BYTES FOLDER
//
// writes the maps 0, 1, .. to FOLDER, of about so many bytes together. Each begins on another line of the real map.
'use strict';

const fs = require('fs');
const path = require('path');
const codec = require('@jridgewell/sourcemap-codec');

const [from, count, bytes, folder] = process.argv.slice(2);
const { file, sources, names, mappings } = JSON.parse(fs.readFileSync(from, 'utf8'));
const lines = codec.decode(mappings);
const rest = JSON.stringify({ version: 3, file, sources, names, mappings: '' }).length;
const each = Math.round(((bytes / count - rest) / mappings.length) * lines.length);

for (let i = 0; i < count; i += 1) {
  const begin = Math.round((i * lines.length) / count);
  const some = Array.from({ length: each }, (_, at) => lines[(begin + at) % lines.length]);
  const map = { version: 3, file, sources, names, mappings: codec.encode(some) };
  fs.writeFileSync(path.join(folder, `${i}`), JSON.stringify(map));
}
