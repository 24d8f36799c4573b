#!/usr/bin/env node
// Lists the originals of a map's mappings, in its order: node list-originals.js MAP OUT writes of each the source, the line and the
// column, from 0, in 32 bits each, as this machine has them in memory.
'use strict';

const fs = require('fs');
const { decode } = require('@jridgewell/sourcemap-codec');

const [from, to] = process.argv.slice(2);
const list = decode(JSON.parse(fs.readFileSync(from, 'utf8')).mappings).flat().filter((segment) => segment.length > 1);
const places = new Uint32Array(3 * list.length);
list.forEach(([, source, line, column], i) => places.set([source, line, column], 3 * i));
fs.writeFileSync(to, places);
