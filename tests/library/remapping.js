'use strict';
// `remapping` of the library in node beside @ampproject/remapping, over the chain of examples/, and maps and loaders at random, where each
// mapping has to be what a walk by trace-mapping comes to: node remapping.js [COUNT]. Which mappings smap keeps and remapping drops is counted.
const assert = require('node:assert');
const fs = require('node:fs');
const path = require('node:path');
const codec = require('@jridgewell/sourcemap-codec');
const theirs = require('@ampproject/remapping');
const trace = require('@jridgewell/trace-mapping');
const smap = require('smap');

const counts = { checks: 0, kept: 0, dropped: 0, repeated: 0, lost: 0 };
const same = (got, wanted, what) => {
  counts.checks += 1;
  assert.deepStrictEqual(got, wanted, what);
};

// A loader that notes what it is told of each source.
const noting = (load, asked) => (source, context) => {
  const { importer, depth, content } = context;
  asked.push([source, importer, depth, context.source, content]);
  return load(source, context);
};

// What a map and its loader come to, as trace-mapping reads them: of each source its map's tree, or its name and its content.
function treeOf(map, url, load, importer, depth) {
  const read = new trace.TraceMap(map, url);
  const sources = read.resolvedSources.map((name, i) => {
    const context = { importer, depth, source: name, content: undefined };
    const inner = load(name, context);
    const content = context.content === undefined ? (read.sourcesContent || [])[i] : context.content;
    return inner ? treeOf(inner, context.source, load, context.source, depth + 1) : { name: context.source, content: content === undefined ? null : content };
  });
  return { read, sources };
}

// Where a place of a tree comes from: nothing where no mapping answers, and null where one without an original does.
function placeIn(tree, line, column, name) {
  if (!tree.read) return { source: tree.name, line: line + 1, column, name: name || null };
  const segment = trace.traceSegment(tree.read, line, column);
  if (segment === null) return undefined;
  if (segment.length === 1) return null;
  return placeIn(tree.sources[segment[1]], segment[2], segment[3], segment.length === 5 ? tree.read.names[segment[4]] : name);
}

const NONE = { source: null, line: null, column: null, name: null };
const key = (place) => place && [place.source, place.line, place.column].join('\n');

// Each mapping of the outer map has to stand in ours, and what is not in theirs has to be dropped by their rule.
function compare(tree, ours, other, what) {
  const [mine, its] = [new smap.TraceMap(String(ours)), new trace.TraceMap(other)];
  const kept = trace.decodedMappings(its).map((segments) => new Map(segments.map((segment) => [segment[0], segment])));
  let count = 0;
  trace.decodedMappings(tree.read).forEach((segments, line) => {
    let before = null;
    for (const [column, source, originalLine, originalColumn, name] of segments) {
      const place = source === undefined ? null : placeIn(tree.sources[source], originalLine, originalColumn, name === undefined ? '' : tree.read.names[name]);
      const at = `${what} ${line}:${column}`;
      same(smap.originalPositionFor(mine, { line: line + 1, column }), place || NONE, at);
      count += 1;
      const found = kept[line] && kept[line].get(column);
      const isRepeated = place !== undefined && key(place) === key(before);
      same(found !== undefined, place !== undefined && !isRepeated, at);
      if (found) same(trace.originalPositionFor(its, { line: line + 1, column }), place || NONE, at);
      if (place !== undefined) before = place;
      counts[found ? 'kept' : isRepeated ? 'repeated' : 'lost'] += 1;
    }
  });
  same(mine.counts.segments, count, what);
  counts.dropped = counts.repeated + counts.lost;
  // Theirs are one by their names, with the last content; ours two, where the contents differ.
  other.sources.forEach((name, i) => {
    const found = ours.sourcesContent.filter((_, number) => ours.sources[number] === name);
    same(found.includes(other.sourcesContent[i]), true, `${what} content of ${name}`);
  });
  mine.close();
}

function both(input, load, what, tree = treeOf(input, '', load(), '', 1)) {
  const asked = [[], []];
  const ours = smap.remapping(input, noting(load(), asked[0]));
  const other = theirs(input, noting(load(), asked[1]));
  same(asked[0], asked[1], what);
  same([ours.version, ours.file, ours.sourceRoot], [other.version, other.file, other.sourceRoot], what);
  compare(tree, ours, other, what);
  return [ours, other];
}

// The builds in several steps of examples/.
const examples = path.join(__dirname, '../../examples');
const read = (name) => JSON.parse(fs.readFileSync(path.join(examples, name)));
const beside = (folder) => () => (source) => (fs.existsSync(path.join(examples, folder, `${source}.map`)) ? read(path.join(folder, `${source}.map`)) : null);

function chains() {
  for (const name of ['bundle', 'bundle.min']) both(read(`chain/dist/${name}.js.map`), beside('chain/dist'), name);
  const before = { ...counts };
  both(read('preset-react.min.js.map'), beside('.'), 'preset-react');
  console.log(`preset-react.min.js: ${counts.kept + counts.dropped - before.kept - before.dropped} mappings beside ${counts.kept - before.kept}`);
  const [outer, inner] = [read('preset-react.min.js.map'), read('preset-react.js.map')];
  const list = smap.remapping([outer, inner], () => null);
  same({ ...list }, { ...smap.remapping(outer, beside('.')()) });
  same([list.sources, list.sourcesContent], [theirs([outer, inner], () => null).sources, theirs([outer, inner], () => null).sourcesContent]);
  const open = new smap.TraceMap(inner);
  for (const given of [JSON.stringify(inner), Buffer.from(JSON.stringify(inner)), open]) same({ ...smap.remapping([outer, given], () => null) }, { ...list });
  same(open.counts.sources, 2);
  const bare = smap.remapping([outer, inner], () => null, { excludeContent: true, decodedMappings: true });
  same(Object.keys(bare), Object.keys(theirs([outer, inner], () => null, { excludeContent: true, decodedMappings: true })));
  same(codec.encode(bare.mappings), list.mappings);
  same({ ...smap.remapping([outer, inner], () => null, true) }, { ...bare, mappings: list.mappings });
  same(JSON.parse(`${list}`), JSON.parse(JSON.stringify(list)));
}

// What a loader puts into its context, as Babel does where it has the map of its input.
function contexts() {
  const outer = { version: 3, sources: ['lib/a.js', 'lib/b.js', 'lib/c.js'], sourcesContent: ['1', '2', '3'], names: [], mappings: 'AAAA,CCAA,CCAA' };
  const inner = { version: 3, sources: ['./a.ts'], sourcesContent: ['4'], names: [], mappings: 'AAAA' };
  const load = () => (source, context) => {
    if (source === 'lib/a.js') {
      context.source = '';
      return inner;
    }
    if (source === 'lib/b.js') [context.source, context.content] = ['other/b.js', null];
    if (source === 'lib/c.js') context.content = 'new';
    return null;
  };
  const [ours] = both(outer, load, 'contexts');
  same([ours.sources, ours.sourcesContent], [['other/b.js', 'lib/c.js', './a.ts'], [null, 'new', '4']]);
  const marked = smap.remapping({ ...outer, ignoreList: [1] }, (source, context) => {
    if (source !== 'lib/c.js') context.ignore = source === 'lib/a.js';
  });
  same([marked.sources, marked.ignoreList], [outer.sources, [0]]);
  same('ignoreList' in ours, false);
}

function refusals() {
  const map = { version: 3, sources: ['a.js'], names: [], mappings: 'AAAA' };
  const two = { ...map, sources: ['a.js', 'b.js'] };
  const message = (call) => {
    try {
      call();
    } catch (error) {
      return error.message;
    }
    return undefined;
  };
  const both = (input) => [smap.remapping, theirs].map((library) => message(() => library(input, () => null)));
  same(...both([map, two, map]));
  same(message(() => smap.remapping(map, () => assert.fail('of the loader'))), 'of the loader');
  for (const [input, loader, options] of [[map], [[], () => null], [7, () => null], [map, () => Promise.resolve(map)], [map, () => 7], [map, () => null, { exclude: true }],
    [map, () => null, { excludeContent: 1 }], [map, (_, context) => void (context.source = 7)], [map, (_, context) => void (context.content = 7)], [JSON.parse(JSON.stringify(Buffer.from('{}'))), () => null]]) {
    counts.checks += 1;
    assert.throws(() => smap.remapping(input, loader, options), TypeError);
  }
  assert.throws(() => smap.remapping(map, () => ({ ...map, version: 2 })), (error) => error instanceof smap.Refused && error.url === 'a.js');
  assert.throws(() => smap.remapping(map, () => map), RangeError);
  const closed = new smap.TraceMap(map);
  closed.close();
  assert.throws(() => smap.remapping(closed, () => null), /closed/);
}

// Maps and loaders at random, of this seed.
let seed = 1;
const below = (limit) => {
  seed = (Math.imul(seed, 1103515245) + 12345) & 0x7fffffff;
  return (seed >>> 8) % limit;
};
const NAMES = ['a.js', './b.js', '../c.js', 'lib/d.js', '/srv/e.js', 'https://e.test/f.js', '../../g.js', 'webpack:///h.js'];

// Where there is a root, only names of which both make the same behind it.
function randomMap(depth) {
  const sourceRoot = below(4) === 0 ? 'root' : undefined;
  const known = sourceRoot ? ['a.js', 'lib/d.js'] : NAMES;
  const sources = Array.from({ length: 1 + below(4) }, () => known[below(known.length)]);
  const names = ['x', 'y'];
  const lines = Array.from({ length: 1 + below(4) }, () => {
    let column = 0;
    return Array.from({ length: below(8) }, () => {
      column += 1 + below(4);
      const place = [column, below(sources.length), below(4), below(16)];
      return [[column], place, place, [...place, below(2)]][below(4)];
    });
  });
  const map = { version: 3, names, sources, sourceRoot, mappings: codec.encode(lines) };
  if (below(2)) map.sourcesContent = sources.map((_, i) => (below(3) ? `${depth}${i}` : null));
  return map;
}

// A loader whose answers are drawn once, in the order in which it is asked.
function randomLoader() {
  const drawn = [];
  return () => {
    let at = 0;
    return (source, context) => {
      if (at === drawn.length) drawn.push({ map: context.depth < 4 && below(3) === 0 ? randomMap(context.depth) : null, moved: below(6), content: below(6) });
      const { map, moved, content } = drawn[at++];
      if (moved === 0) context.source = `moved/${context.depth}.js`;
      if (moved === 1 && map) context.source = '';
      if (content === 0) context.content = 'other';
      return map;
    };
  };
}

function random(count) {
  for (let i = 0; i < count; i++) {
    const [map, load] = [randomMap(0), randomLoader()];
    both(map, load, `random ${i}`, treeOf(map, '', load(), '', 1));
  }
}

chains();
contexts();
refusals();
random(Number(process.argv[2] || 500));
console.log(Object.entries(counts).map((pair) => pair.join(' ')).join(' '));
console.log('remapping', counts.checks);
