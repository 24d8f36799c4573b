'use strict';
// Every call that @jridgewell/trace-mapping and the library in node both have, over real maps: node like-trace-mapping.js MAP..
// What the two answer differently by a rule has to be what the rule says, and is counted.
const assert = require('node:assert');
const fs = require('node:fs');
const path = require('node:path').posix;
const smap = require('smap');
const codec = require('@jridgewell/sourcemap-codec');
const trace = require('@jridgewell/trace-mapping');

const URLS = [undefined, 'https://e.test/js/out.js.map', 'out.js.map', 'dist/js/out.js.map', './dist/out.js.map', '../out.js.map', '/srv/js/out.js.map'];
// How many mappings of a map are looked up.
const MOST = 300;

const counts = { maps: 0, files: 0, calls: 0, names: 0, columns: 0, refused: 0 };
const same = (got, wanted, what) => {
  counts.calls += 1;
  assert.deepStrictEqual(got, wanted, what);
};

// Compares what the two answer. Where they differ, it has to be by this rule.
const byRule = (rule, got, wanted, ruled, what) => {
  counts.calls += 1;
  if (JSON.stringify(got) === JSON.stringify(wanted)) return;
  counts[rule] += 1;
  assert.deepStrictEqual(got, ruled(), what);
};

const parts = (object) => (object.sections ? object.sections.map((section) => section.map) : [object]);

// A source's name: the root and the text, parsed as a URL where they are one, and else beside the map where that has a path.
function nameOf(root, source, url) {
  if (source === null) return null;
  const text = (root ? root.replace(/\/?$/, '/') : '') + source;
  const isPath = url !== undefined && !url.startsWith('https:');
  try {
    return new URL(text, isPath ? undefined : url).href;
  } catch {
    if (!isPath) return text;
  }
  if (text.startsWith('/')) return path.normalize(text);
  const joined = path.join(path.dirname(url), text);
  return url.startsWith('./') && !joined.startsWith('..') ? `./${joined}` : joined;
}

function sameNames(ours, theirs, object, url) {
  const ruled = parts(object).flatMap(({ sourceRoot, sources }) => sources.map((source) => nameOf(sourceRoot, source, url)));
  assert.strictEqual(ours.resolvedSources.length, theirs.resolvedSources.length);
  ruled.forEach((name, i) => byRule('names', ours.resolvedSources[i], theirs.resolvedSources[i], () => name, `${url} source ${i}`));
}

const answer = (map, segment) =>
  segment === undefined || segment.length === 1
    ? { source: null, line: null, column: null, name: null }
    : { source: map.resolvedSources[segment[1]], line: segment[2] + 1, column: segment[3], name: segment.length === 5 ? map.names[segment[4]] : null };

// The first mapping from the column on, and the last one up to it.
const from = (line, column) => line.find((segment) => segment[0] >= column);
const upTo = (line, column) => [...line].reverse().find((segment) => segment[0] <= column);

function sameAt(ours, theirs, lines, line, column) {
  const mappings = lines[line] || [];
  const what = `${line}:${column}`;
  const ask = (library, map, bias) => library.originalPositionFor(map, { line: line + 1, column, bias });
  for (const [bias, found] of [[undefined, upTo], [1, upTo], [-1, from]]) {
    byRule('columns', ask(smap, ours, bias), ask(trace, theirs, bias), () => answer(ours, found(mappings, column)), what);
  }
  byRule('columns', smap.traceSegment(ours, line, column), trace.traceSegment(theirs, line, column), () => upTo(mappings, column) || null, what);
}

// Where an original position stands in the generated file, in both directions, and beside it.
function sameGenerated(ours, theirs, { source, originalLine: line, originalColumn }) {
  for (const column of [0, originalColumn - 1, originalColumn, originalColumn + 1, originalColumn + 9]) {
    for (const bias of column < 0 ? [] : [undefined, 1, -1]) {
      const needle = { source, line, column, bias };
      for (const call of ['generatedPositionFor', 'allGeneratedPositionsFor']) same(smap[call](ours, needle), trace[call](theirs, needle), call);
    }
  }
}

// What is in both maps, which have the same names.
function sameMaps(ours, theirs) {
  for (const member of ['version', 'file', 'sourceRoot', 'sources', 'sourcesContent']) same(ours[member], theirs[member], member);
  same(ours.names, theirs.names || [], 'names');
  const [lines, text] = [trace.decodedMappings(theirs), trace.encodedMappings(theirs)];
  same(smap.encodedMappings(ours), text, 'encodedMappings');
  same(smap.decodedMappings(ours), lines, 'decodedMappings');
  same(smap.decodedMappings(ours) === smap.decodedMappings(ours), true);
  for (const call of ['decodedMap', 'encodedMap']) {
    const { ignoreList, ...map } = smap[call](ours);
    same(map, { ...trace[call](theirs), names: theirs.names || [] }, call);
    same(ignoreList, ours.ignoreList);
  }
  const [mine, others] = [[], []];
  smap.eachMapping(ours, (mapping) => mine.push(mapping));
  trace.eachMapping(theirs, (mapping) => others.push(mapping));
  same(mine, others, 'eachMapping');
  same([...ours.mappings()], others, 'mappings');
  for (const source of [...theirs.sources, ...theirs.resolvedSources, 'no such source', null]) {
    const content = trace.sourceContentFor(theirs, source);
    same(smap.sourceContentFor(ours, source), content === undefined ? null : content, `content of ${source}`);
  }
  const step = Math.max(1, Math.floor(others.length / MOST));
  for (let i = 0; i < others.length; i += step) {
    const { generatedLine, generatedColumn } = others[i];
    if (others[i].source !== null) sameGenerated(ours, theirs, others[i]);
    for (const column of [0, generatedColumn - 1, generatedColumn, generatedColumn + 1, Infinity]) {
      if (column >= 0) sameAt(ours, theirs, lines, generatedLine - 1, column);
    }
  }
  for (const line of [0, lines.length - 1, lines.length, lines.length + 7]) if (line >= 0) sameAt(ours, theirs, lines, line, 3);
  for (const source of ['no such source', null, theirs.sources[0]]) sameGenerated(ours, theirs, { source, originalLine: 2 ** 30, originalColumn: 0 });
}

// The bytes of each source in the generated file, where that stands beside the map, as trace-mapping's mappings cut it.
function sameBytes(ours, theirs, file) {
  const code = file.replace(/\.map$/, '');
  if (!fs.existsSync(code)) return;
  const bytes = fs.readFileSync(code);
  const wanted = { sources: ours.resolvedSources.map(() => 0), unmapped: bytes.length };
  bytes.toString().split(/\r\n|[\n\r\u2028\u2029]/).forEach((text, line) => {
    const mappings = trace.decodedMappings(theirs)[line] || [];
    mappings.forEach(([column, source], i) => {
      if (source === undefined) return;
      const length = Buffer.byteLength(text.slice(column, i + 1 < mappings.length ? mappings[i + 1][0] : text.length));
      wanted.sources[source] += length;
      wanted.unmapped -= length;
    });
  });
  counts.files += 1;
  same(ours.bytesBySource(bytes), wanted, 'bytesBySource');
}

function compare(file) {
  const text = fs.readFileSync(file, 'utf8');
  const object = JSON.parse(text);
  let ours;
  try {
    ours = new smap.TraceMap(text);
  } catch (refused) {
    assert.ok(refused instanceof smap.Refused);
    counts.refused += 1;
    console.error(`${file}: ${refused.message.split('\n')[0]}`);
    return;
  }
  counts.maps += 1;
  for (const url of URLS) sameNames(new smap.TraceMap(text, url), new trace.AnyMap(text, url), object, url);
  const marked = parts(object).flatMap(({ sources, ignoreList, x_google_ignoreList: older }) =>
    sources.map((_, i) => (ignoreList || older || []).includes(i)));
  same(ours.sourceEntries.map(({ ignored }) => ignored), marked);
  if (!object.sections) same(ours.ignoreList, object.ignoreList || object.x_google_ignoreList || undefined);
  const decoded = (map) => ({ ...map, mappings: codec.decode(map.mappings) });
  const inDecoded = object.sections
    ? { ...object, sections: object.sections.map((section) => ({ ...section, map: decoded(section.map) })) }
    : decoded(object);
  for (const given of [text, object, inDecoded]) {
    const [mine, theirs] = [new smap.AnyMap(given), new trace.AnyMap(given)];
    // Names differ by rule, and are compared above; and what is null there is not here.
    theirs.resolvedSources = mine.resolvedSources;
    for (const member of ['file', 'sourcesContent']) if (theirs[member] === null) theirs[member] = undefined;
    if (object.sections) theirs.sources = mine.sources;
    sameMaps(mine, theirs);
    same(new smap.TraceMap(mine) === mine, new trace.TraceMap(theirs) === theirs);
  }
  same(new smap.TraceMap(Buffer.from(text)).resolvedSources, ours.resolvedSources);
  sameBytes(ours, new trace.AnyMap(text), file);
}

for (const file of process.argv.slice(2)) {
  try {
    compare(file);
  } catch (error) {
    error.message = `${file}: ${error.message}`;
    throw error;
  }
}
console.log(Object.entries(counts).map((pair) => pair.join(' ')).join(' '));
