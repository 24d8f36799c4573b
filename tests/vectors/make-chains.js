#!/usr/bin/env node
// Makes the rows of composing all inner maps at once: small chains of maps, beside what @ampproject/remapping makes of them.
// README.md beside this file says which they are.
//
//   node make-chains.js      writes its rows of smap_rows and prints the counts
//
// Nothing here is made from smap's own code or output.
'use strict';

const codec = require('@jridgewell/sourcemap-codec');
const remapping = require('@ampproject/remapping');
const { composedAll, pruned } = require('./compose-all.js');
const { putRows, run } = require('./rows.js');

const { version } = require('@ampproject/remapping/package.json');

function insist(holds, what) {
  if (!holds) throw new Error(what);
}

// A map of these sources, whose lines are written in decoded form.
function map(sources, lines, rest = {}) {
  return { version: 3, sources, ...rest, mappings: codec.encode(lines) };
}

// A map of one line, with a mapping at columns 0, 4, 8, .. to each of these places.
function line(sources, places, rest) {
  return map(sources, [places.map((place, i) => [4 * i, ...place])], rest);
}

// To a place of each of so many sources.
const each = (count) => Array.from({ length: count }, (_, source) => [source, 0, 0]);
// To two lines of one source.
const TWO = [[0, 0, 0], [0, 1, 2]];
const OUT = map(['a.js'], [[[0, 0, 0, 1], [6, 0, 0, 9], [9, 0, 2, 3]]]);
const THREE_LINES = [[[0, 0, 4, 2], [8, 0, 5, 1]], [], [[3, 0, 7, 0]]];

// A source of an outer map, whose inner map has these sources.
function placed(outer, inners, rest) {
  const lines = inners.map((_, source) => [[2, source, 3 * source, 1]]);
  return [line([outer], inners.map((_, i) => [0, i, 2])), { [outer]: map(inners, lines, rest) }];
}

// A title; the outer map; the inner maps, by the names of its sources; and those by the names of their sources.
const ROWS = [
  ['Places where the inner map has a mapping, and behind one.', OUT, { 'a.js': map(['a.ts'], THREE_LINES) }],
  ['An in-between source without a map.', line(['a.js', 'lib.js'], each(2)), { 'a.js': line(['a.ts'], [[0, 2, 1]]) }],
  [
    'A source without content, beside one that has it.',
    line(['a.js', 'b.js'], each(2), { sourcesContent: ['in between', 'kept'] }),
    { 'a.js': line(['a.ts'], [[0, 1, 0]], { sourcesContent: [null] }) },
  ],
  [
    'Three maps, one after another.',
    line(['bundle.js'], [[0, 0, 0], [0, 1, 0]]),
    { 'bundle.js': map(['build/a.js', 'build/b.js'], [[[0, 0, 0, 4]], [[0, 1, 2, 0]]]) },
    { 'build/a.js': line(['../src/a.ts'], TWO), 'build/b.js': map(['../src/b.ts'], [[], [], [[0, 0, 9, 9]]]) },
  ],
  [
    'Three maps, where one module has no map.',
    line(['bundle.js'], [[0, 0, 0], [0, 1, 0]]),
    { 'bundle.js': map(['build/a.js', 'vendor/b.js'], [[[0, 0, 0, 4]], [[0, 1, 2, 0]]]) },
    { 'build/a.js': line(['../src/a.ts'], TWO) },
  ],
  ['One map for two sources of one name.', line(['a.js', 'a.js'], [[0, 0, 0], [1, 0, 4]]), { 'a.js': line(['a.ts'], TWO) }],
  [
    'Names: the inner map\'s, else the outer\'s, else none.',
    line(['a.js'], [[0, 0, 0, 0], [0, 0, 4, 1], [0, 0, 8], [0, 0, 12]], { names: ['t', 'u'] }),
    { 'a.js': line(['a.ts'], [[0, 0, 0, 1], [0, 1, 0], [0, 2, 0, 0], [0, 3, 0]], { names: ['size', 'total'] }) },
  ],
  [
    'Names of three maps: the last that has one.',
    line(['b.js'], [[0, 0, 0, 0], [0, 0, 4, 0], [0, 0, 8, 0]], { names: ['outer'] }),
    { 'b.js': line(['a.js'], [[0, 0, 0, 0], [0, 0, 4, 0], [0, 0, 8]], { names: ['middle'] }) },
    { 'a.js': line(['a.ts'], [[0, 0, 0, 0], [0, 1, 0], [0, 2, 0]], { names: ['inner'] }) },
  ],
  ['A source in a folder beside.', ...placed('../build/a.js', ['../src/a.ts', 'b.ts', './c.ts', '../../d.ts'])],
  [
    'A source in a folder: what goes on from there, and what stays.',
    ...placed('build/a.js', ['../src/a.ts', 'x/./y/../../b.ts', '../../../c.ts', '/srv/d.ts', 'webpack:///e.ts', 'x//f.ts']),
  ],
  ['A source in folders in folders.', ...placed('build/x/y/a.js', ['../../../src/x/y/a.ts', '../b.ts'])],
  ['A source in a folder far up.', ...placed('../../build/a.js', ['../../src/a.ts'])],
  ['A source in no folder.', ...placed('a.js', ['../src/a.ts', 'b.ts', 'x/../c.ts'])],
  ['An absolute path.', ...placed('/srv/build/a.js', ['../src/a.ts', '../../b.ts', '../../../c.ts', 'd.ts', '/srv/e.ts'])],
  ['A URL.', ...placed('https://ex.test/js/build/a.js', ['../src/a.ts', '/b.ts', './c.ts', 'webpack:///d.ts'])],
  ['A URL without its scheme.', ...placed('//host/build/a.js', ['../src/a.ts', '../../../b.ts', 'c.ts'])],
  ['A URL without a host.', ...placed('webpack:///src/a.js', ['./lib/a.ts', '../b.ts'])],
  ['The URL of a file.', ...placed('file:///srv/build/a.js', ['../src/a.ts', '/b.ts'])],
  ['A sourceRoot of the inner map, in the folder.', ...placed('build/a.js', ['a.ts', '../b.ts'], { sourceRoot: 'src' })],
  ['A sourceRoot that leads out of it.', ...placed('build/a.js', ['a.ts'], { sourceRoot: '../src/' })],
  ['A sourceRoot that is an absolute path.', ...placed('build/a.js', ['x/a.ts'], { sourceRoot: '/srv/src' })],
  ['A sourceRoot that is a URL.', ...placed('build/a.js', ['a.ts'], { sourceRoot: 'https://ex.test/src/' })],
  [
    'A sourceRoot of the outer map.',
    line(['a.js'], TWO, { sourceRoot: 'build' }),
    { 'build/a.js': map(['../src/a.ts'], [[[0, 0, 3, 1]]]) },
  ],
  [
    'Mappings without an origin, in the inner map and in the outer one.',
    map(['a.js'], [[[0, 0, 0, 0], [2, 0, 0, 4], [5], [7, 0, 0, 9]]]),
    { 'a.js': map(['a.ts'], [[[0, 0, 1, 1], [4], [8, 0, 2, 2]]]) },
  ],
  [
    'No answer: before the first mapping of a line, and on a line without any.',
    map(['a.js'], [[[0, 0, 0, 1], [3, 0, 1, 0], [6, 0, 2, 2], [9, 0, 8, 0]]]),
    { 'a.js': map(['a.ts'], [[[2, 0, 1, 1]], [], [[2, 0, 5, 0]]]) },
  ],
  [
    'Mappings that come to one place.',
    map(['a.js'], [[[0, 0, 0, 0], [2, 0, 0, 1], [4, 0, 0, 2], [6, 0, 0, 5]], [[0, 0, 0, 3]]]),
    { 'a.js': map(['a.ts'], [[[0, 0, 1, 1], [5, 0, 2, 0]]]) },
  ],
  [
    'A source that two inner maps share.',
    line(['build/a.js', 'build/b.js'], each(2)),
    { 'build/a.js': line(['../src/c.ts'], [[0, 1, 0]]), 'build/b.js': line(['b.ts', '../src/c.ts'], [[1, 2, 0]]) },
  ],
  [
    'Two texts of one name.',
    line(['a.js', 'b.js'], each(2)),
    {
      'a.js': line(['c.ts'], [[0, 1, 0]], { sourcesContent: ['one'] }),
      'b.js': line(['c.ts'], [[0, 2, 0]], { sourcesContent: ['other'] }),
    },
  ],
  ['An inner map of its own name.', line(['a.js'], TWO), { 'a.js': map(['a.js'], [[[0, 0, 3, 1]], [[2, 0, 6, 4]]]) }],
  [
    'A source without a mapping, which has a map.',
    line(['none.js', 'a.js'], [[1, 0, 0]]),
    { 'none.js': line(['none.ts'], [[0, 0, 0]]), 'a.js': line(['a.ts'], [[0, 4, 4]]) },
  ],
];

// ---------------------------------------------------------------------------------------------
// What remapping answers.
// ---------------------------------------------------------------------------------------------

// It asks for the map of each source of the outer map, and then for those of the sources of what it got.
function remapped(outer, steps) {
  const asked = new Set();
  const written = remapping(outer, (source, { depth }) => {
    const inner = steps[depth - 1]?.[source];
    if (inner !== undefined) asked.add(inner);
    return inner ?? null;
  });
  insist(steps.flatMap(Object.values).every((inner) => asked.has(inner)), 'a map that was not asked for');
  return written;
}

// The mappings: line, column, source, original line and column, and name, as far as one has them, with texts for indices.
function mappingsOf({ mappings, sources, names }) {
  return codec.decode(mappings).flatMap((segments, i) =>
    segments.map(([column, source, ...rest]) => {
      if (source === undefined) return [i, column];
      const [line, originalColumn, ...name] = rest;
      return [i, column, sources[source], line, originalColumn, ...name.map((index) => names[index])];
    }),
  );
}

// ---------------------------------------------------------------------------------------------
// The rows. Each composes a map with maps of its sources, and prunes it; what is written is that of `compose-all.js`, in which
// each mapping that remapping made has to be.
// ---------------------------------------------------------------------------------------------

const counts = { mappings: 0, unmapped: 0 };

function composed(outer, inners) {
  return pruned(composedAll(outer, new Map(Object.entries(inners))));
}

// The map that a step of a build comes to, and its row.
function step(outer, inners) {
  const names = Object.keys(inners);
  const files = names.map((name, i) => [`${i + 1}.map`, JSON.stringify(inners[name])]);
  const named = names.flatMap((name, i) => ['--inner', `${name}=${files[i][0]}`]);
  const map = composed(outer, inners);
  const text = JSON.stringify(map);
  const list = ['compose', '--prune', ...named, 'o.map'];
  return { map: JSON.parse(text), row: run(list, '', [0, `${text}\n`, ''], [['o.map', JSON.stringify(outer)], ...files]) };
}

// The steps of a chain: all at once or, where there are three maps, the last two first and the first two first.
function stepsOf(outer, [inners, deeper]) {
  if (deeper === undefined) return [[step(outer, inners)]];
  const below = Object.entries(inners).map(([name, inner]) => [name, step(inner, deeper)]);
  const wholes = Object.fromEntries(below.map(([name, { map }]) => [name, map]));
  const first = step(outer, inners);
  return [
    [...below.map(([, one]) => one), step(outer, wholes)],
    [first, step(first.map, deeper)],
  ];
}

function rowsOf([what, outer, ...steps]) {
  const found = mappingsOf(remapped(outer, steps));
  insist(found.length > 0, `nothing is left: ${what}`);
  counts.mappings += found.length;
  counts.unmapped += found.filter((fields) => fields.length === 2).length;
  const ways = stepsOf(outer, steps);
  for (const way of ways) {
    const has = new Set(mappingsOf(way.at(-1).map).map((fields) => JSON.stringify(fields)));
    for (const fields of found) insist(has.has(JSON.stringify(fields)), `remapping has another mapping: ${what} ${fields}`);
  }
  return ways.flat().map(({ row }) => row);
}

const twos = ROWS.filter((fields) => fields.length === 3);
const threes = ROWS.filter((fields) => fields.length === 4);
insist(twos.length + threes.length === ROWS.length, 'a row of another length');
putRows('compose of chains of maps', __filename, ROWS.flatMap(rowsOf));
console.log(
  `rows ${twos.length} of two steps, ${threes.length} of three: ` +
    `mappings ${counts.mappings}, without an origin ${counts.unmapped}; remapping ${version}`,
);
