#!/usr/bin/env node
// Makes the rows of stack traces, of the traces and maps in traces/ and of those in examples/. README.md beside this file
// says what they are.
//
//   node make-traces.js       writes its rows of smap_rows and prints the counts
//
// Nothing here is made from smap's own code or output.
'use strict';

const fs = require('fs');
const path = require('path');
const { AnyMap, traceSegment } = require('@jridgewell/trace-mapping');
const { SourceMapConsumer } = require('source-map');
const { file, putFile, putRows, row, words } = require('./rows.js');

const ROOT = path.join(__dirname, '..', '..');

function insist(holds, what) {
  if (!holds) throw new Error(what);
}

// ---------------------------------------------------------------------------------------------
// The maps, each under the URL that its bundle ran under.
// ---------------------------------------------------------------------------------------------

// `ignored` is put into the map, or into those of its sections, one behind another.
function mapAt(url, file, ...ignored) {
  const whole = JSON.parse(fs.readFileSync(path.join(ROOT, file), 'utf8'));
  const { sourcesContent, ...map } = whole;
  const parts = map.sections ? map.sections.map((section) => section.map) : [map];
  insist(parts.length === ignored.length, `${file} has other sections`);
  parts.forEach((part, i) => Object.assign(part, ignored[i]));
  return { url, path: path.basename(file), map, traced: new AnyMap(map), consumer: new SourceMapConsumer(map) };
}

const MAPS = [
  mapAt('https://example.test/calls.js?v=3', 'tests/vectors/traces/calls.map', { ignoreList: [0] }),
  mapAt('file:///srv/app/waits.mjs', 'tests/vectors/traces/waits.map', { ignoreList: [0] }),
  mapAt('/srv/app/a (b)/texts.cjs', 'tests/vectors/traces/texts.map', { x_google_ignoreList: [1] }),
  mapAt('/srv/app/größe.cjs', 'tests/vectors/traces/typed.map', { ignoreList: [] }),
  mapAt('https://example.test/pieces.js', 'tests/vectors/traces/pieces.map', { ignoreList: [0] }, { ignoreList: [1] }),
  mapAt('https://example.test/receipt.min.js', 'examples/receipt.min.js.map', { ignoreList: [0] }),
];

const TRACES = [
  'examples/receipt.trace',
  ...['calls', 'waits', 'worker', 'texts', 'typed', 'pieces', 'firefox', 'safari'].map((name) => `tests/vectors/traces/${name}.trace`),
];

// ---------------------------------------------------------------------------------------------
// Frames, as docs/FORMAT.md has them.
// ---------------------------------------------------------------------------------------------

// The length in UTF-8 counts.
const MOST_BYTES = 65536;
const PLACE = /^([^]+):([1-9]\d{0,9}):([1-9]\d{0,9})$/;

function placed(head, text, tail) {
  const match = PLACE.exec(text);
  if (!match) return null;
  const [, url, line, column] = match;
  return Math.max(line, column) > 2147483648 ? null : { head, url, line: Number(line), column: Number(column), tail };
}

function called(head, text, end) {
  const call = text.indexOf(' (');
  if (call < 1 || !text.endsWith(')')) return null;
  return placed(head + text.slice(0, call + 2), text.slice(call + 2, -1), `)${end}`);
}

function plain(head, text, end) {
  const waited = text.startsWith('async ') ? 'async ' : '';
  const frame = placed(head + waited, text.slice(waited.length), end);
  return frame && !frame.url.startsWith('async ') ? frame : null;
}

// A function, which may be missing, and a place behind the first `@`.
function signed(line) {
  const match = /^([^@\r]*@)([^\r]*)(\r?)$/.exec(line);
  return match && placed(match[1], match[2], match[3]);
}

function frameOf(line) {
  if (Buffer.byteLength(line) > MOST_BYTES) return null;
  if (!/^[ \t]*at /.test(line)) return signed(line);
  const match = /^([ \t]*at )([^\r]*)(\r?)$/.exec(line);
  if (!match) return null;
  const [, head, text, end] = match;
  return called(head, text, end) ?? plain(head, text, end);
}

// ---------------------------------------------------------------------------------------------
// Originals.
// ---------------------------------------------------------------------------------------------

// The URL that a text is beside a base, which may be null, or the text.
function parsed(text, base) {
  try {
    return new URL(text, base ?? undefined).href;
  } catch {
    return text;
  }
}

function isUrl(text) {
  try {
    return Boolean(new URL(text));
  } catch {
    return false;
  }
}

function nameOf(map, source, url) {
  const { sourceRoot: root } = map;
  const prefix = !root || root.endsWith('/') ? root || '' : `${root}/`;
  return source === null ? null : parsed(prefix + source, isUrl(url) ? url : null);
}

// The map that a source stands in, by its index: the map itself, or that of a section; the source; and whether that map
// says to pass over it.
function sourceAt({ map }, index) {
  let rest = index;
  for (const part of map.sections ? map.sections.map((section) => section.map) : [map]) {
    const ignored = part.ignoreList ?? part.x_google_ignoreList ?? [];
    if (rest < part.sources.length) return [part, part.sources[rest], ignored.includes(rest)];
    rest -= part.sources.length;
  }
  throw new Error(`there is no source ${index}`);
}

// The place of a frame in its source, as two other implementations have it: its line and column, from 1, and its name,
// where the source has one that prints; and whether the map says to pass over the source.
function originalOf(frame) {
  const entry = MAPS.find(({ url }) => url === frame.url);
  if (!entry) return null;
  const segment = traceSegment(entry.traced, frame.line - 1, frame.column - 1);
  const other = entry.consumer.originalPositionFor({ line: frame.line, column: frame.column - 1 });
  const where = `${frame.url}:${frame.line}:${frame.column}`;
  if (!segment || segment.length === 1) {
    insist(other.line === null, `${where} has an original`);
    return null;
  }
  const [, index, line, column] = segment;
  insist(other.line === line + 1 && other.column === column, `${where} is ${other.line}:${other.column}`);
  const [map, source, ignored] = sourceAt(entry, index);
  const name = nameOf(map, source, frame.url);
  return { text: name && !/[\x00-\x1f\x7f]/.test(name) ? `${name}:${line + 1}:${column + 1}` : null, ignored };
}

// ---------------------------------------------------------------------------------------------
// Traces.
// ---------------------------------------------------------------------------------------------

// Each kind of line that is to stand in some trace.
const KINDS = {
  'a function or a method': /^ +at [\p{L}$.]+ \(/u,
  'a place alone': /^ +at (https|file):[^ ]+$/,
  '`new`': /^ +at new /,
  '`[as x]`': /^ +at .* \[as \w+\] \(/,
  'a symbol': /^ +at (async )?\[Symbol\.\w+\] \(/,
  'a private method': /^ +at #\w+ \(/,
  'a field of a class': /<instance_members_initializer>/,
  '`async` before a function': /^ +at async [\w.]+ \((https|file)/,
  '`async` before a place': /^ +at async (https|file)/,
  '`async` before `Promise.all` or `Promise.any`': /^ +at async Promise\.a\w+ \(index \d\)$/,
  'a function of V8': /^\s+at [\w. ]+ \(<anonymous>\)$/,
  '`<anonymous>` alone': /^ +at <anonymous>$/,
  'in a text that was evaluated': /\(eval at /,
  'in such a text with a name': /\(https:\/\/example\.test\/made\.js/,
  WebAssembly: /wasm-function\[1\]:0x/,
  "one of node's own modules": /^ +at .*node:internal/,
  "a worker's": /node:internal\/worker/,
  'a `file:` module': /file:\/\/\/srv\/app\/waits/,
  'a `data:` module': /^ +at data:/,
  'a path that is no URL': /^ +at ([^(]+ \()?\/srv\/app\//,
  'a path beyond ASCII': /größe\.cjs:\d+:\d+/,
  'with a CR': /^ +at .*\r$/,
  'behind a tab': /^\t at /,
  'deeper, in a `cause`': /^ {6,}at /,
  'a frame with something behind it': /^ +at .*:\d+\)[ ,]/,
  'a line of a message': /^ {2}of a message$/,
  'a function, `@` and a place': /^[\w.]+@(https|file)/,
  '`@` and a place alone': /^@(https|file)/,
  'a function within one, behind `/`': /^[\w./]+<(\.\w+)?@/,
  '`async*` and the like before a function': /^(async|promise callback|setTimeout handler)\*.*@/,
  'in a text that was evaluated, behind a line': /@.* line \d+ > (eval|Function):/,
  'with an `@` in the name of the function': /^\["@f"\]@/,
  '`global code` or `module code`': /^(global|module) code@/,
  '`[native code]`': /@\[native code\]$/,
  'a place without an `@`': /^https:.*:\d+:\d+$/,
};

const counts = Object.fromEntries(Object.keys(KINDS).map((kind) => [kind, 0]));

function rewritten(text, hide) {
  const lines = text.match(/[^\n]*\n|[^\n]+$/g) ?? [];
  const summary = { lines: lines.length, frames: 0, mapped: 0, hidden: 0 };
  const written = lines.map((whole) => {
    const end = whole.endsWith('\n') ? '\n' : '';
    const line = whole.slice(0, whole.length - end.length);
    if (!hide) for (const [kind, form] of Object.entries(KINDS)) counts[kind] += form.test(line) ? 1 : 0;
    const frame = frameOf(line);
    if (!frame) return whole;
    summary.frames += 1;
    insist(`${frame.head}${frame.url}:${frame.line}:${frame.column}${frame.tail}` === line, `not a frame: ${line}`);
    const original = originalOf(frame);
    if (hide && original?.ignored) {
      summary.hidden += 1;
      return '';
    }
    if (!original?.text) return whole;
    summary.mapped += 1;
    return `${frame.head}${original.text}${frame.tail}${end}`;
  });
  return { text: written.join(''), summary };
}

// ---------------------------------------------------------------------------------------------
// The rows.
// ---------------------------------------------------------------------------------------------

const total = { lines: 0, frames: 0, mapped: 0, hidden: 0 };
const traces = TRACES.map((file) => fs.readFileSync(path.join(ROOT, file), 'utf8'));
const rows = traces.map((trace) => {
  const { text, summary } = rewritten(trace, false);
  for (const key of ['lines', 'frames', 'mapped']) total[key] += summary[key];
  return { trace, counts: Object.values(summary), text };
});
const hiding = traces.map((trace) => {
  const { text, summary } = rewritten(trace, true);
  total.hidden += summary.hidden;
  return { counts: Object.values(summary), text };
});
const maps = MAPS.map(({ url, path: name, map }) => ({ url, name: `traces/${name}`, text: JSON.stringify(map) }));

for (const [kind, count] of Object.entries(counts)) insist(count > 0, `there is no ${kind}`);

const EACH = '%K';
const SOUND = '8192/0';
// How many bytes a call of standard input and of standard output moves.
const PIECES = [['8192/0', '8192/0'], ['1/0', '8192/0'], ['7/0', '1/0']];
const NAMED = maps.map(({ url, name }) => `${url}=${name}`);
const TABLE = maps.flatMap(({ url, name }) => [url, file(name)]);

function traceRows({ trace, counts: shown, text }, i) {
  const name = `traces/${i + 1}.txt`;
  putFile(name, trace);
  const ran = (flags, output) =>
    PIECES.map((pieces) =>
      row(['run_over', ...pieces, SOUND, words('rewrite', ...flags, '--interval', EACH, ...NAMED), file(name)], [0, output, '']),
    );
  const called = (how, summary, output) =>
    row(['rewrite', SOUND, SOUND, how, EACH, file(name), ...TABLE], [summary.join(' '), output]);
  const hidden = hiding[i];
  return [
    ...ran([], text),
    ...ran(['--hide-ignored'], hidden.text),
    called('show', shown, text),
    called('hide', hidden.counts, hidden.text),
  ];
}

// Of a trace the frames that are replaced, as a text of their own: they are places too.
function alike({ trace, text }) {
  const after = text.split('\n');
  const pairs = trace.split('\n').map((line, i) => [line, after[i]]);
  const replaced = pairs.filter(([line, written]) => line !== written);
  const [asked, written] = [0, 1].map((k) => replaced.map((pair) => pair[k]).join('\n'));
  const n = replaced.length;
  return row(['rewrite_places', SOUND, SOUND, 1000000, 64, asked, ...TABLE], [`${n} ${n} ${n} 0`, written]);
}

for (const { name, text } of maps) putFile(name, text);
putRows('Traces of node over their maps', __filename, rows.flatMap(traceRows));
putRows('Frames that are places alike', __filename, rows.map(alike));
console.log(`${rows.length} traces, ${total.lines} lines, ${total.frames} frames, ${total.mapped} mapped, ${total.hidden} to be hidden`);
for (const [kind, count] of Object.entries(counts)) console.log(`${String(count).padStart(5)} ${kind}`);
