// Two regular maps composed, as docs/FORMAT.md says, over the lists that other people's decoder gives: nothing here is
// smap's.
'use strict';

const codec = require('@jridgewell/sourcemap-codec');
const { linesOf, isIgnored } = require('./lookup.js');

// The last segment of a line whose column is not after the asked one, both from 0. Columns do not fall.
function lastOf(segments, column) {
  let below = 0;
  let above = segments.length;
  while (below < above) {
    const middle = (below + above) >> 1;
    if (segments[middle][0] <= column) below = middle + 1;
    else above = middle;
  }
  return below === 0 ? null : segments[below - 1];
}

// A segment of the outer map, of whose source `source` the inner list is, with the outer map's numbers of sources and
// names.
function follow(segment, source, inner, sources, names) {
  if (segment.length === 1 || segment[1] !== source) return segment;
  const [column, , line, original, ...name] = segment;
  const found = lastOf(inner[line] ?? [], original);
  if (found === null || found.length === 1) return [column];
  const named = found.length === 5 ? [found[4] + names] : name;
  return [column, found[1] + sources, found[2], found[3], ...named];
}

// The string for mappings line by line. The codec also writes the `;` of empty lines at the end.
function encoded(lines) {
  const used = lines.slice();
  while (used.length > 0 && used[used.length - 1].length === 0) used.pop();
  return codec.encode(used);
}

// The mappings of the composed map, line by line.
function followed(outer, source, inner) {
  const behind = linesOf(inner.mappings);
  const names = (outer.names ?? []).length;
  return linesOf(outer.mappings).map((line) =>
    line.map((segment) => follow(segment, source, behind, outer.sources.length, names)),
  );
}

// The name of a source, without a base: the URL that it is behind its root, or that text.
function sourceNameOf(root, source) {
  if (source === null) return null;
  const prefix = root === '' || root.endsWith('/') ? root : `${root}/`;
  const text = `${prefix}${source}`;
  return URL.canParse(text) ? new URL(text).href : text;
}

// The entries of both maps: all but the mappings. Keys without a value are left out when this is written.
function joined(outer, inner) {
  const maps = [outer, inner];
  const contents = maps.flatMap(({ sources, sourcesContent }) => sources.map((_, i) => sourcesContent?.[i] ?? null));
  const ignored = maps.flatMap((map) => map.sources.map((_, i) => isIgnored(map, i)));
  const indices = ignored.flatMap((is, i) => (is ? [i] : []));
  return {
    file: outer.file ?? undefined,
    ignoreList: indices.length > 0 ? indices : undefined,
    names: maps.flatMap(({ names }) => names ?? []),
    sources: maps.flatMap(({ sourceRoot, sources }) => sources.map((source) => sourceNameOf(sourceRoot ?? '', source))),
    sourcesContent: contents.some((content) => content !== null) ? contents : undefined,
  };
}

// The map that two maps compose to, its keys in the order in which smap writes them.
function composedMap(outer, source, inner) {
  const { file, ignoreList, names, sources, sourcesContent } = joined(outer, inner);
  const mappings = encoded(followed(outer, source, inner));
  return { file, ignoreList, mappings, names, sources, sourcesContent, version: 3 };
}

module.exports = { composedMap, encoded, follow, sourceNameOf };
