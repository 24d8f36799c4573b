#!/usr/bin/env node
// Joins the two modules of this folder into `bundle.js`, and their maps into `bundle.js.map`, an index map.
//
//   node examples/make-index-map.js
//
// Each module stands in a function of its own, as node and bundlers wrap one. The head of that function stands on
// the first line of the module, so that the section begins inside a line. The maps go in as they are.
'use strict';

const fs = require('fs');
const path = require('path');

const MODULES = ['preset-react.js', 'convert-comments.cjs'];
const BUNDLE = 'bundle.js';

function read(name) {
  return fs.readFileSync(path.join(__dirname, name), 'utf8');
}

function write(name, text) {
  fs.writeFileSync(path.join(__dirname, name), text);
}

// The code without its last line, which names the map, and the blank lines before that.
function codeOf(name) {
  return read(name).replace(/\s*\/\/# sourceMappingURL=.*\s*$/, '\n');
}

// The place, from 0, that follows a text.
function placeAfter(text) {
  const lines = text.split('\n');
  return { line: lines.length - 1, column: lines[lines.length - 1].length };
}

let bundle = 'var modules = {};\n';
const sections = [];
for (const name of MODULES) {
  bundle += `modules["${name}"] = function (exports, require, module) { `;
  sections.push({ offset: placeAfter(bundle), map: JSON.parse(read(`${name}.map`)) });
  bundle += `${codeOf(name)}};\n`;
}

write(BUNDLE, `${bundle}//# sourceMappingURL=${BUNDLE}.map\n`);
write(`${BUNDLE}.map`, JSON.stringify({ version: 3, file: BUNDLE, sections }));
