#!/usr/bin/env node
// Writes the vectors of index maps, made of pieces of the real maps in examples/. README.md beside this file says
// what they are.
//
//   node make-index-maps.js       writes its rows of smap_rows and prints the counts
//
// Nothing here is made from smap's own code or output.
'use strict';

const fs = require('fs');
const path = require('path');
const { SourceMap } = require('module');
const codec = require('@jridgewell/sourcemap-codec');
const { AnyMap, decodedMappings } = require('@jridgewell/trace-mapping');
const { checked } = require('./checker.js');
const { answersOfAll, isIgnored, linesOf, shownText } = require('./lookup.js');
const { file, putFile, putRows, row } = require('./rows.js');
const { chance, below, pick } = require('./chance.js').chanceFrom(426);

// The program of the rows lists so many sources and names of a map.
const MOST_ENTRIES = 100;

const ROOT = path.join(__dirname, '..', '..');

function insist(holds, what) {
  if (!holds) throw new Error(what);
}

// ---------------------------------------------------------------------------------------------
// The real maps, each as its entries and the list of its mappings: line, column, and the origin as
// a segment has it.
// ---------------------------------------------------------------------------------------------

function listOf(lines) {
  return lines.flatMap((line, i) => line.map(([column, ...origin]) => ({ line: i, column, origin })));
}

function example(name) {
  return fs.readFileSync(path.join(ROOT, 'examples', name), 'utf8');
}

function mapOf(name) {
  const { sources, names, mappings } = JSON.parse(example(name));
  return { sources, names, list: listOf(linesOf(mappings)) };
}

// Of jQuery's map only the text of its mappings is there, so its names are made up.
function jquery() {
  const list = listOf(linesOf(example('jquery.min.mappings')));
  const most = Math.max(...list.map(({ origin }) => origin[3] ?? 0));
  return { sources: ['jquery.js'], names: Array.from({ length: most + 1 }, (_, i) => `n${i}`), list };
}

const REAL = [mapOf('preset-react.js.map'), mapOf('convert-comments.cjs.map'), jquery()];

// So many mappings that follow one another in a real map, moved to begin at a place. Those of its first line keep
// their distances, and so do the lines.
function piece(real, length, to) {
  const begin = below(Math.max(1, real.list.length - length));
  const some = real.list.slice(begin, begin + length);
  const [first] = some;
  const list = some.map(({ line, column, origin }) => ({
    line: line - first.line + to.line,
    column: line === first.line ? column - first.column + to.column : column,
    origin: chance() < 0.08 ? [] : origin.length === 4 && chance() < 0.1 ? origin.slice(0, 3) : origin,
    real,
  }));
  return list;
}

function isBefore(a, b) {
  return a.line < b.line || (a.line === b.line && a.column < b.column);
}

// ---------------------------------------------------------------------------------------------
// Sections.
// ---------------------------------------------------------------------------------------------

// The number of an entry in a list that grows by it where it is new.
function numberIn(list, entry) {
  if (!list.includes(entry)) list.push(entry);
  return list.indexOf(entry);
}

// The map of a section at an offset, of mappings with their places in the whole.
function sectionMap(offset, list, { root, sparse }) {
  const sources = [];
  const names = [];
  // Entries that no mapping speaks of.
  if (!sparse && chance() < 0.25) sources.push(pick(['unused.js', null, 'webpack:///./src/unused.js']));
  if (!sparse && chance() < 0.25) names.push('unused');
  const lines = [[]];
  for (const { line, column, origin, real } of list) {
    const number = line - offset.line;
    while (lines.length <= number) lines.push([]);
    const segment = [number === 0 ? column - offset.column : column];
    if (origin.length > 0) {
      segment.push(numberIn(sources, real.sources[origin[0]]), origin[1], origin[2]);
    }
    if (origin.length > 3) segment.push(numberIn(names, real.names[origin[3]]));
    lines[number].push(segment);
  }
  const map = { version: 3, sources, names, mappings: codec.encode(lines) };
  if (!sparse && sources.length > 0 && chance() < 0.15) sources[below(sources.length)] = null;
  if (names.length === 0 && chance() < 0.5) delete map.names;
  if (chance() < 0.15) delete map.version;
  if (root !== undefined) map.sourceRoot = root;
  if (sources.length > 0 && chance() < 0.2) {
    map[pick(['ignoreList', 'x_google_ignoreList'])] = [below(sources.length)];
  }
  if (chance() < 0.15) map.mappings += pick([';', ';;;']);
  return map;
}

// Each offset has the mappings from it up to the next offset. One that stands at an offset goes with those after it,
// with those before it, or with both.
function cut(list, offsets, at, options) {
  const sections = offsets.map((offset, i) => {
    const next = offsets[i + 1] ?? { line: Infinity, column: 0 };
    const isFrom = (place) => (at === 'before' && i > 0 ? isBefore(offset, place) : !isBefore(place, offset));
    const isUpTo = (place) => (at === 'after' ? isBefore(place, next) : !isBefore(next, place));
    const some = list.filter((mapping) => isFrom(mapping) && isUpTo(mapping));
    return { offset, map: sectionMap(offset, some, options(i)) };
  });
  if (at !== 'both') {
    const same = ({ line, column, origin }) => [line, column, ...origin.slice(1, 3)].join(',');
    const back = joinedBySection({ sections }).flat();
    insist(back.map(same).join(' ') === list.map(same).join(' '), 'the pieces are another map');
  }
  return indexMap(sections);
}

function indexMap(sections) {
  const map = { version: 3, sections };
  if (chance() < 0.2) map.file = 'bundle.js';
  // Beside `sections` these are not read.
  if (chance() < 0.15) Object.assign(map, { sources: ['outer.js'], names: ['outer'], mappings: 'AAAAA' });
  return map;
}

const PLAIN = () => ({});

// Roots of some sections, always one of the first, so that the next one's is another or none.
function someRoots() {
  const first = pick(['src', 'lib/', 'https://ex.test/a', '']);
  return (i) => (i === 0 ? { root: first } : { root: chance() < 0.3 ? pick(['other', 'webpack:///']) : undefined });
}

// ---------------------------------------------------------------------------------------------
// Index maps: real maps cut in pieces, and pieces of real maps one behind another.
// ---------------------------------------------------------------------------------------------

// A place at which one can cut before a mapping: at it, and where it goes with those after it also between it and the
// one before, or where a line begins.
function cutBefore(before, mapping, at) {
  const places = [{ line: mapping.line, column: mapping.column }];
  if (at !== 'after') return places[0];
  if (before.line < mapping.line) {
    places.push({ line: mapping.line, column: 0 }, { line: before.line, column: before.column + 1 + below(9) });
    if (before.line + 1 < mapping.line) places.push({ line: before.line + 1, column: below(30) });
  } else if (before.column + 1 < mapping.column) {
    places.push({ line: mapping.line, column: mapping.column - 1 });
  }
  return pick(places);
}

function offsetsOf(list, first, count, at) {
  const offsets = [first];
  for (let i = 1; i < count; i++) {
    const j = 1 + below(list.length - 1);
    offsets.push(cutBefore(list[j - 1], list[j], at));
    // A second section at the same place leaves the first one empty.
    if (chance() < 0.15) offsets.push(offsets[offsets.length - 1]);
  }
  return offsets.sort((a, b) => (isBefore(a, b) ? -1 : isBefore(b, a) ? 1 : 0));
}

function start() {
  return { line: pick([0, 0, 1, 7]), column: pick([0, 0, 3, 40]) };
}

function cutMap(at, options) {
  const first = start();
  const begin = pick([first, { line: first.line, column: first.column + below(6) }]);
  const list = piece(pick(REAL), 16 + below(18), begin);
  return cut(list, offsetsOf(list, first, 2 + below(4), at), at, options);
}

// Each piece begins at its offset, or a little behind it, and each offset behind the last mapping before it.
function joined(count, options) {
  const sections = [];
  let offset = start();
  for (let i = 0; i < count; i++) {
    const to = { line: offset.line, column: offset.column + pick([0, 0, 5]) };
    const list = chance() < 0.15 ? [] : piece(pick(REAL), 4 + below(10), to);
    sections.push({ offset, map: sectionMap(offset, list, options(i)) });
    const last = list[list.length - 1] ?? offset;
    offset = pick([
      { line: last.line, column: last.column + 1 + below(20) },
      { line: last.line + 1, column: 0 },
      { line: last.line + 1 + below(4), column: below(50) },
    ]);
  }
  return indexMap(sections);
}

const section = (line, column, map) => ({ offset: { line, column }, map });
const A = { version: 3, sources: ['a.js'], names: ['f'], mappings: 'AAAAA,KAAK;;EAEA' };
const B = { version: 3, sources: [null, 'b.js'], sourceRoot: 'lib', names: [], mappings: 'ACAA,C;AACA' };
const NONE = { sources: [], mappings: '' };

// Rows that random ones would seldom be.
const BY_HAND = [
  [],
  [section(0, 0, NONE)],
  [section(5, 9, { sources: ['a.js'], names: ['f'], mappings: ';;;' }), section(5, 9, NONE), section(5, 9, NONE)],
  [section(0, 0, A)],
  [section(2, 10, A)],
  [section(0, 3, A), section(2, 3, B)],
  [section(0, 3, NONE), section(0, 3, A), section(2, 20, NONE), section(2, 20, B), section(9, 0, NONE)],
  [section(0, 0, A), section(2, 2, B)],
  [section(0, 0, { ...A, mappings: 'AAAA' }), section(0, 0, { ...B, mappings: 'ACAA' }), section(0, 0, A)],
  [section(1, 4, { ...A, mappings: 'A' }), section(1, 4, { ...B, mappings: 'A' }), section(1, 5, A)],
];

// ---------------------------------------------------------------------------------------------
// What is stated: other people's joining, and the rules of docs/FORMAT.md for the names of sources.
// ---------------------------------------------------------------------------------------------

const counts = { whole: 0, bySection: 0, node: 0, sources: 0 };

// An index map as trace-mapping takes it: it wants names in each map.
function withNames({ sections, ...rest }) {
  const full = sections.map(({ offset, map }) => ({ offset, map: { ...map, names: map.names ?? [] } }));
  return { ...rest, sections: full };
}

function traced(map) {
  const any = new AnyMap(withNames(map));
  return { any, list: listOf(decodedMappings(any)) };
}

// Each section joined by itself, and the indices moved by the entries before it.
function joinedBySection({ sections }) {
  let sources = 0;
  let names = 0;
  const parts = [];
  for (const one of sections) {
    const part = traced({ version: 3, sections: [one] }).list;
    for (const { origin } of part) {
      if (origin.length > 0) origin[0] += sources;
      if (origin.length > 3) origin[3] += names;
    }
    parts.push(part);
    sources += one.map.sources.length;
    names += (one.map.names ?? []).length;
  }
  return parts;
}

function sourceName(root, source) {
  if (source === null) return null;
  const prefix = root === undefined || root === '' || root.endsWith('/') ? (root ?? '') : `${root}/`;
  try {
    return new URL(prefix + source).href;
  } catch {
    return prefix + source;
  }
}

// Its sources are those that are compared with a second reader: it resolves `.` and `..` in a path too.
function isPlainSource(text) {
  return text === null || !/(^|\/)\.\.?\//.test(text);
}

function numbersOf({ line, column, origin }) {
  return [line, column, ...origin];
}

function mappingText(mapping) {
  return numbersOf(mapping).join(',');
}

function placeOf({ line, column }) {
  return `${line},${column}`;
}

// node finds each mapping that has its place for itself. It gives the last segment of a section a name where there is
// none, so names are left out.
function compareWithNode(map, list, given) {
  const node = new SourceMap(map);
  const places = list.map(placeOf);
  for (const mapping of list) {
    const { line, column, origin } = mapping;
    if (origin.length === 0 || places.filter((place) => place === placeOf(mapping)).length > 1) continue;
    const entry = node.findEntry(line, column);
    const said = [entry.originalSource, entry.originalLine, entry.originalColumn];
    const right = [given[origin[0]], origin[1], origin[2]];
    insist(JSON.stringify(said) === JSON.stringify(right), `node differs at ${placeOf(mapping)}: ${said}`);
    counts.node += 1;
  }
}

function stated(map) {
  const parts = joinedBySection(map);
  const list = parts.flat();
  const { any, list: whole } = traced(map);
  const all = list.map(mappingText).join(' ');
  // trace-mapping drops what stands at the next offset, or passes it.
  const kept = parts.flatMap((part, i) => {
    const next = map.sections[i + 1]?.offset;
    return next === undefined ? part : part.filter((mapping) => isBefore(mapping, next));
  });
  insist(kept.map(mappingText).join(' ') === whole.map(mappingText).join(' '), 'trace-mapping joins otherwise');
  counts[kept.length === list.length ? 'whole' : 'bySection'] += 1;

  const entries = { sources: [], given: [], names: [] };
  for (const { map: own } of map.sections) {
    const marked = own.sources.map((source, i) => {
      const name = shownText(sourceName(own.sourceRoot, source) ?? 'none');
      return isIgnored(own, i) ? `${name}*` : name;
    });
    entries.sources.push(...marked);
    entries.given.push(...own.sources);
    entries.names.push(...(own.names ?? []));
  }
  insist(JSON.stringify(any.names) === JSON.stringify(entries.names), 'trace-mapping has other names');
  entries.sources.forEach((text, i) => {
    if (!isPlainSource(entries.given[i]) || entries.given[i] === null) return;
    insist(text.replace('*', '') === any.sources[i], `trace-mapping has another source: ${text} ${any.sources[i]}`);
    counts.sources += 1;
  });
  compareWithNode(map, list, entries.given);

  insist(entries.sources.length < MOST_ENTRIES && entries.names.length < MOST_ENTRIES, 'too many entries');
  insist(![...entries.sources, ...entries.names].some((text) => /[|,\s]/.test(text)), 'a text that no row can hold');
  const used = parts.reduce((sum, part) => sum + new Set(part.map(({ line }) => line)).size, 0);
  const contents = map.sections.flatMap(({ map: own }) => own.sources.map((_, i) => own.sourcesContent?.[i] ?? 'none'));
  const texts = [entries.sources, contents, entries.names].map((some) => some.join(','));
  return { list, held: [list.length, used, all, map.file ?? '-', ...texts] };
}

// Whether the rules of docs/FORMAT.md accept it.
function insistAccepted({ sections }) {
  sections.forEach(({ offset, map }, i) => {
    const next = sections[i + 1]?.offset;
    insist(next === undefined || !isBefore(next, offset), 'offsets that fall');
    const found = checked(map.mappings, map.sources.length, (map.names ?? []).length);
    insist(found.kind === 0, `not accepted: ${map.mappings}`);
  });
  joinedBySection({ sections }).forEach((part, i) => {
    const next = sections[i + 1]?.offset;
    insist(next === undefined || !part.some((mapping) => isBefore(next, mapping)), 'a mapping passes the next offset');
  });
}

// ---------------------------------------------------------------------------------------------

const rows = [];
const tally = {};

function add(kind, map) {
  insistAccepted(map);
  const row = [JSON.stringify(map), stated(map)];
  if (rows.some(([text]) => text === row[0])) return false;
  rows.push(row);
  tally[kind] = (tally[kind] ?? 0) + 1;
  return true;
}

function addSome(kind, howMany, make) {
  for (let made = 0; made < howMany; ) if (add(kind, make())) made += 1;
}

for (const sections of BY_HAND) add('by hand', { version: 3, sections });
addSome('a map cut in pieces', 14, () => cutMap('after', PLAIN));
addSome('a map cut in pieces, with roots', 4, () => cutMap('after', someRoots()));
addSome('a map cut behind what stands at an offset', 6, () => cutMap('before', PLAIN));
addSome('the same, which the next section has too', 4, () => cutMap('both', PLAIN));
addSome('pieces of maps, one behind another', 10, () => joined(2 + below(4), PLAIN));
addSome('pieces of maps, with roots', 6, () => joined(2 + below(3), someRoots()));
const withoutContent = (key, value) => (key === 'sourcesContent' ? undefined : value);
add('the map in examples/', JSON.parse(example('bundle.js.map'), withoutContent));

const EACH = '%K';
const written = rows.flatMap(([text, { list, held }], i) => {
  const name = `index/${String(i + 1).padStart(2, '0')}.map`;
  const { asked, answers } = answersOfAll(list.map(numbersOf));
  putFile(name, text);
  // It is read of bytes that are lent, and of bytes that are let go.
  return [row(['read', file(name), EACH, '-'], [...held, ...held]), row(['look_ups', file(name), EACH, ...asked], answers)];
});
putRows('Index maps', __filename, written);

const sections = rows.map(([text]) => JSON.parse(text).sections);
const flat = sections.flat();
console.log(`${rows.length} index maps with ${flat.length} sections`);
console.log(tally);
console.log(`trace-mapping joined ${counts.whole} as a whole, ${counts.bySection} section by section`);
console.log(`node found ${counts.node} mappings, trace-mapping has ${counts.sources} sources as they are here`);
const shapes = {
  'that begin inside a line': flat.filter(({ offset }) => offset.column > 0).length,
  'without mappings': flat.filter(({ map }) => !/[A-Z]/i.test(map.mappings)).length,
  'on the line of the one before': sections.flatMap((list) =>
    list.filter(({ offset }, i) => i > 0 && list[i - 1].offset.line === offset.line)).length,
  'with a sourceRoot': flat.filter(({ map }) => map.sourceRoot !== undefined).length,
  'with a null source': flat.filter(({ map }) => map.sources.includes(null)).length,
  'without names': flat.filter(({ map }) => map.names === undefined).length,
};
console.log('sections', shapes);
