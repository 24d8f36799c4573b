#!/usr/bin/env node
// Makes the rows of places anywhere in a text: what node 20 prints for errors of many kinds that
// examples/receipt.min.js throws, each in a process of its own, and that text with its places rewritten; and the same in
// colours, which node puts into the URLs of packages.
//
//   node make-anywhere.js     writes its rows of smap_rows and prints the counts
//
// Nothing here is made from smap's own code or output: the places are those of a regular expression, node's own
// reader of source maps, the class SourceMap of node:module, looks them up, and node:util takes the colours out.
'use strict';

const fs = require('fs');
const path = require('path');
const { SourceMap } = require('module');
const { spawnSync } = require('child_process');
const { stripVTControlCharacters } = require('util');
const { file, putFile, putRows, row, words } = require('./rows.js');

const ROOT = path.join(__dirname, '..', '..');
const URL_OF = 'https://example.test/receipt.min.js';
const URL_OF_PACKAGE = 'https://example.test/node_modules/receipt/receipt.min.js';
const BUNDLE = path.join(ROOT, 'examples', 'receipt.min.js');

function insist(holds, what) {
  if (!holds) throw new Error(what);
}

// ---------------------------------------------------------------------------------------------
// What node prints. The bundle catches its error; here its handler is another one.
// ---------------------------------------------------------------------------------------------

const RUN = `
  Promise.prototype.catch = function () { return this.then(undefined, (error) => setTimeout(() => seen(error), 1)); };
  vm.runInThisContext(require('fs').readFileSync(process.env.BUNDLE, 'utf8'), { filename: process.env.FILENAME });
`;
const NAMED = `
  const { map } = Array.prototype;
  Array.prototype.map = function (call, self) {
    Object.defineProperty(call, 'name', { value: 'save (draft)' });
    return map.call(this, call, self);
  };
`;
const EVALUATING = `
  Number.prototype.replace = function () { return this + ''; };
  globalThis.String = eval;
`;

// A kind, and the program that meets the error; it is run in a worker where that is said.
const KINDS = [
  ['an error', 'function seen(error) { console.error(error); }'],
  ['a cause', "function seen(error) { console.error(new Error('no receipt', { cause: error })); }"],
  ['a cause of a cause', "function seen(cause) { console.error(new Error('a', { cause: new Error('b', { cause }) })); }"],
  ['many errors', "function seen(error) { console.error(new AggregateError([error, error], 'all failed')); }"],
  ['a code', "function seen(error) { console.error(Object.assign(error, { code: 'E_PRICE' })); }"],
  ['a rejection that nobody handles', 'function seen(error) { Promise.reject(error); }'],
  ['one that nobody catches', 'function seen(error) { throw error; }'],
  ['one with a code that nobody catches', "function seen(error) { throw Object.assign(error, { code: 'E_PRICE' }); }"],
  ['one that nobody catches in a worker', 'function seen(error) { throw error; }', true],
  ['an evaluated text', `${EVALUATING} function seen(error) { console.error(error); }`],
  ['a computed name', `${NAMED} function seen(error) { console.error(error); }`],
  ['an error in an object', "function seen(error) { console.error({ level: 'error', error }); }"],
  ['an error in a list in an object', 'function seen(error) { console.error({ errors: [error] }); }'],
  ['a line of a logger', "function seen({ message, stack }) { console.error(JSON.stringify({ level: 50, time: 1700000000000, err: { message, stack } })); }"],
  ['a line of a logger behind a time', "function seen({ stack }) { console.error('12:34:56.789 web-1  | ' + JSON.stringify(stack)); }"],
];

function printed([kind, program, isWorker], url, colours) {
  const whole = program + RUN;
  const text = isWorker ? `new (require('worker_threads').Worker)(${JSON.stringify(`const vm = require('vm');${whole}`)}, { eval: true })` : whole;
  const { stderr } = spawnSync(process.execPath, ['-e', text], { encoding: 'utf8', env: { PATH: process.env.PATH, BUNDLE, FILENAME: url, ...colours } });
  insist(stripVTControlCharacters(stderr).includes(url), `${kind} prints no place: ${stderr}`);
  return stderr;
}

// ---------------------------------------------------------------------------------------------
// The text, rewritten.
// ---------------------------------------------------------------------------------------------

const { sourcesContent, ...map } = JSON.parse(fs.readFileSync(`${BUNDLE}.map`, 'utf8'));
const read = new SourceMap(map);
const placesOf = (url) => new RegExp(`(?<![\\w\\-./\\\\%~+$:\\u0080-\\uffff])${url.replace(/[.]/g, '\\.')}:([1-9]\\d{0,9}):([1-9]\\d{0,9})(?!\\d)`, 'g');

const total = { lines: 0, places: 0, mapped: 0 };

function rewritten(text, url) {
  const summary = { lines: text.match(/[^\n]*\n|[^\n]+$/g).length, places: 0, mapped: 0 };
  const written = text.replace(placesOf(url), (place, line, column) => {
    summary.places += 1;
    const entry = read.findEntry(line - 1, column - 1);
    if (entry.generatedLine !== line - 1 || entry.originalSource === undefined) return place;
    summary.mapped += 1;
    return `${new URL(entry.originalSource, url).href}:${entry.originalLine + 1}:${entry.originalColumn + 1}`;
  });
  for (const key of Object.keys(total)) total[key] += summary[key];
  return [summary, text, written];
}

// ---------------------------------------------------------------------------------------------
// The rows: each text over devices that move so many bytes a call.
// ---------------------------------------------------------------------------------------------

const MAP = 'anywhere.map';
const PIECES = ['8192/0', '7/0', '1/0'];
const rows = KINDS.map((kind) => rewritten(printed(kind, URL_OF, { NO_COLOR: '1' }), URL_OF));

const coloured = KINDS.map((kind) => printed(kind, URL_OF_PACKAGE, { FORCE_COLOR: '1' })).filter((text) => text.includes('\x1b['));

putFile(MAP, JSON.stringify(map));
putRows(
  'What node prints',
  __filename,
  rows.flatMap(([{ lines, places, mapped }, text, written]) =>
    PIECES.map((device) =>
      row(['rewrite_places', device, device, 1000000, 64, text, URL_OF, file(MAP)], [`${lines} ${places} ${mapped} 0`, written]),
    ),
  ),
);
putRows(
  'What node prints in colours',
  __filename,
  coloured.flatMap((text) => {
    const [, , written] = rewritten(stripVTControlCharacters(text), URL_OF_PACKAGE);
    const command = words('rewrite', '--strip-ansi', '--anywhere', `${URL_OF_PACKAGE}=${MAP}`);
    return PIECES.map((device) => row(['run_over', device, device, device, command, text], [0, written, '']));
  }),
);
console.log(`${rows.length} texts, ${coloured.length} in colours, ${total.lines} lines, ${total.places} places, ${total.mapped} mapped`);
