// All maps of a step of a build composed at once, and maps pruned, as docs/FORMAT.md says, over the lists that other people's
// decoder gives: nothing here is smap's.
'use strict';

const { encoded, follow, sourceNameOf } = require('./compose.js');
const { linesOf, isIgnored } = require('./lookup.js');

// Whether a text begins with the scheme of a URL, or with the letter of a drive.
function hasScheme(text) {
  return /^[A-Za-z][A-Za-z0-9+.-]*:/.test(text);
}

// A relative path, going on from the folder that a file is in. Behind `//` a host stands, which stays.
function fromFolder(file, text) {
  const [, host, rest] = /^(\/\/[^/]*)?([^]*)$/.exec(file);
  const rooted = rest.startsWith('/') || host !== undefined;
  const pieces = [];
  for (const piece of [...rest.split('/').slice(0, -1), ...text.split('/')]) {
    if (piece === '' || piece === '.') continue;
    if (piece !== '..') pieces.push(piece);
    else if (pieces.length > 0 && pieces.at(-1) !== '..') pieces.pop();
    else if (!rooted) pieces.push(piece);
  }
  return `${host ?? ''}${rooted ? '/' : ''}${pieces.join('/')}`;
}

// The name of a source of an inner map, of the source that is called `outer`.
function innerNameOf(outer, root, source) {
  if (source === null) return null;
  const prefix = root === '' || root.endsWith('/') ? root : `${root}/`;
  const text = `${prefix}${source}`;
  const base = outer !== null && URL.canParse(outer) ? outer : undefined;
  if (URL.canParse(text, base)) return new URL(text, base).href;
  const isRelative = text !== '' && !text.startsWith('/') && !hasScheme(text);
  return outer !== null && isRelative && !hasScheme(outer) ? fromFolder(outer, text) : text;
}

// The sources of a map with their names, contents and marks.
function sourcesOf(map, nameOf) {
  return map.sources.map((source, i) => ({
    name: nameOf(map.sourceRoot ?? '', source),
    content: map.sourcesContent?.[i] ?? null,
    ignored: isIgnored(map, i),
  }));
}

function record(file, lines, names, sources) {
  const indices = sources.flatMap(({ ignored }, i) => (ignored ? [i] : []));
  return {
    file: file ?? undefined,
    ignoreList: indices.length > 0 ? indices : undefined,
    mappings: encoded(lines),
    names,
    sources: sources.map(({ name }) => name),
    sourcesContent: sources.some(({ content }) => content !== null) ? sources.map(({ content }) => content) : undefined,
    version: 3,
  };
}

// The map that an outer map and the maps of its sources compose to. The maps are given by the names of the sources, and the
// keys stand in the order in which smap writes them.
function composedAll(outer, inners) {
  const sources = sourcesOf(outer, sourceNameOf);
  const names = [...(outer.names ?? [])];
  const behind = sources.map(({ name }) => {
    const inner = inners.get(name);
    if (inner === undefined) return null;
    const place = { lines: linesOf(inner.mappings), sources: sources.length, names: names.length };
    sources.push(...sourcesOf(inner, (root, source) => innerNameOf(name, root, source)));
    names.push(...(inner.names ?? []));
    return place;
  });
  const followed = (segment) => {
    const place = behind[segment[1]] ?? null;
    return place === null ? segment : follow(segment, segment[1], place.lines, place.sources, place.names);
  };
  const lines = linesOf(outer.mappings).map((line) => line.map(followed));
  return record(outer.file, lines, names, sources);
}

// Which of some entries are used: those that stay, and the new index of each. Of equal ones the first that is used stands for
// all.
function kept(entries, used, keyOf) {
  const firsts = new Map();
  const indices = new Map();
  const left = [];
  entries.forEach((entry, i) => {
    if (!used.has(i)) return;
    const key = keyOf(entry);
    if (!firsts.has(key)) firsts.set(key, left.push(entry) - 1);
    indices.set(i, firsts.get(key));
  });
  return { left, indices };
}

// A regular map without the sources and the names that no mapping has.
function pruned(map) {
  const lines = linesOf(map.mappings);
  const origins = lines.flat().filter((segment) => segment.length > 1);
  const sourceKey = ({ name, content, ignored }) => JSON.stringify([name, content, ignored]);
  const sources = kept(sourcesOf(map, sourceNameOf), new Set(origins.map((segment) => segment[1])), sourceKey);
  const named = origins.filter((segment) => segment.length === 5).map((segment) => segment[4]);
  const names = kept(map.names ?? [], new Set(named), (name) => name);
  const moved = ([column, source, line, original, name]) => {
    if (source === undefined) return [column];
    const origin = [column, sources.indices.get(source), line, original];
    return name === undefined ? origin : [...origin, names.indices.get(name)];
  };
  return record(map.file, lines.map((line) => line.map(moved)), names.left, sources.left);
}

module.exports = { composedAll, pruned };
