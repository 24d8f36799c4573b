'use strict';
// A source map that was read.
const { inspect } = require('util');
const addon = require('./addon.js');
const given = require('./given.js');
const { each, encoded, lastLine } = require('./mappings.js');
const { Outline, numbersTo } = require('./outline.js');
const { Refused, refusedAs, refusedMap } = require('./refused.js');

// How a URL with a host begins, which is no path.
const HOST = /^[a-z][a-z0-9+.-]*:\/\//i;
// Whether a URL is an absolute path.
const isPath = (url) => addon.isPath(Buffer.from(url));
// The one look-up, and what it is asked and answers, as tracing.js has it; behind that the place of the map or table, and where a whole
// place is asked for, whether the source is ignored, and the last column for which the answer holds.
const { lookUp, room } = addon;
const WHOLE_PLACE = 4;
const ROOM_HANDLE = 10;
const ROOM_IGNORED = 11;
const ROOM_LAST = 12;
// What `using` calls at the end of a block.
const DISPOSE = Symbol.dispose || Symbol.for('nodejs.dispose');

// How a map is read where nothing is said.
const USUALLY = given.reading();

// The bytes of no base or id, and the numbers of a refusal, which are told at once.
const NO_BYTES = Buffer.alloc(0);
const refusal = new Float64Array(6);

// The map of these bytes, which is so read, as a handle; at none, where that may be, if the base is no URL. `url` is that which a refusal
// names.
function read(bytes, base, how, url, orAtNone = false) {
  const each = given.intervalOf(how, bytes.length);
  const map = addon.read(bytes, base === '' ? NO_BYTES : Buffer.from(base), orAtNone, each, how.maxNames, refusal);
  if (map === null) throw refusedMap(bytes, refusal, base, url);
  return map;
}

// The bytes of a short text of ASCII stand in one room until the next one is read; a Buffer for each takes a fifth of the time.
const SHORT = 16384;
const shortText = Buffer.allocUnsafeSlow(3 * SHORT);
function bytesOf(text) {
  const count = text.length <= SHORT && !given.seemsPath(text) ? shortText.write(text) : 0;
  return count === text.length ? shortText.subarray(0, count) : given.mapBytes(text);
}

// The map of these bytes at its URL, or at none where that is no URL, or where there is none.
const standingAt = (bytes, url, how = USUALLY) => read(bytes, url ?? '', how, url ?? undefined, true);

// The map that is given under a URL, as a handle: a TraceMap's own, or that of these bytes, which stands there. With `paths` one whose URL
// is an absolute path stands at none, and has its sources named by that; where others hold the map, one that is read again.
function standingUnder({ url, paths, how }, map) {
  const isByPath = paths && isPath(url);
  if (!(map instanceof TraceMap)) return named(standingAt(given.mapBytes(map), isByPath ? null : url, how), isByPath && url);
  const handle = named(open(map), isByPath && url);
  if (isByPath) forget(map);
  return handle;
}

// The map with its sources named by this URL, if that is one.
function named(handle, url) {
  if (!url || addon.usePaths(handle, Buffer.from(url))) return handle;
  return named(read(addon.write(handle, false, NO_BYTES), '', USUALLY), url);
}

// The outline of the bytes of what was given, of which this handle was read.
function outlineIn(bytes, map, { debugId }) {
  const outline = Outline.of(bytes, debugId);
  // The text of no lines is that of one line without segments.
  if (Array.isArray(map.mappings) && map.mappings.length === 0) outline.all.least = 0;
  return outline;
}

// The map of these bytes at a URL or a path, or at none.
function readAt(bytes, base, how) {
  try {
    return read(bytes, base, how, base || undefined);
  } catch (refused) {
    if (!(refused instanceof Refused) || refused.code !== 'usage' || HOST.test(base)) throw refused;
    return readAtPath(bytes, base, how);
  }
}

function readAtPath(bytes, path, how) {
  const map = read(bytes, '', how, path);
  if (addon.standAt(map, Buffer.from(path), how.maxNames, refusal)) return map;
  addon.closeMap(map);
  throw refusedMap(bytes, refusal, '', path);
}

// That a map stands at this URL, or at none where it is no URL: a path is none here; whether its sources are named by paths; and
// how it is read.
class Under {
  constructor(url, paths, how) {
    [this.url, this.paths, this.how] = [url, paths, how];
  }
}

// What a TraceMap is made of: a handle, what else the text has, and how many bytes; and the TraceMap whose handle it is, if it is one's.
class Made {
  constructor(handle, outline, bytes, map) {
    [this.handle, this.outline, this.bytes, this.map] = [handle, outline, bytes, map];
  }

  // About how many bytes of memory a map takes with its index of originals, if that was made, and what else its text has.
  get size() {
    return addon.size(this.handle) + this.outline.size;
  }
}

// The names of the sources of a map.
function namesOf(handle) {
  return Array.from({ length: addon.counts(handle).sources }, (_, index) => addon.sourceName(handle, index));
}

// What is said of a TraceMap of another copy of this package in the process, whose handle is of another addon.
const OTHER_COPY = 'a TraceMap of this copy of smap is wanted, and this is of another one: `new TraceMap(map)` reads it again';

// What a map has that is open.
function opened(map) {
  if (!(map instanceof TraceMap)) throw new TypeError(given.isAnyTraceMap(map) ? OTHER_COPY : 'a TraceMap is wanted');
  const { inner } = map;
  if (!inner.handle) throw new Error('the map is closed');
  return inner;
}

const open = (map) => opened(map).handle;

// Looks a line and a column up, both from 0, in the map of this handle, in this way: 0, WHOLE_PLACE, or as tracing.js has it. What
// is answered stands in the room from its fourth number on.
function ask(handle, line, column, how) {
  room[0] = line;
  room[1] = column;
  room[2] = how;
  room[ROOM_HANDLE] = handle.place;
  lookUp();
}

// The last column for which an answer holds: before the next mapping or, of the greatest number, to the line's end.
const columnOf = (last) => (last === 4294967295 ? Infinity : last);

// What a map has by this key, which is made once, of its handle.
function once(map, key, make) {
  const handle = open(map);
  const { made } = map.inner;
  if (!made.has(key)) made.set(key, make(handle));
  return made.get(key);
}

// How many generated lines a map has whose last mapping stands on this line, or -1 where there is none.
function linesOf(map, last) {
  const { least, behind } = map.inner.outline.all;
  return Math.max(last + 1, least) + behind;
}

// The mappings as a text.
function encodedMappings(map) {
  return once(map, 'encoded', (handle) => {
    const numbers = addon.mappings(handle);
    return encoded(numbers, linesOf(map, lastLine(numbers)));
  });
}

// The map as an object, with these mappings.
function withMappings(map, mappings) {
  const { version, file, names, sourceRoot, sources, sourcesContent, ignoreList } = map;
  return { version, file, names, sourceRoot, sources, sourcesContent, mappings, ignoreList };
}

// Whether a map's debug id is written, if it is asked for, and its bytes.
function idOf(map, isAsked = false) {
  const id = given.boolean(isAsked, 'debugId') ? map.debugId : undefined;
  return [id !== undefined, id === undefined ? NO_BYTES : Buffer.from(id)];
}

// What the JSON of a map has by this key.
function json(map, key) {
  return once(map, key, () => map.inner.outline.value(key));
}

// The contents of the sources, which are kept no longer than they are in use.
function contentsOf(map) {
  const handle = open(map);
  const { made, outline } = map.inner;
  const { isIndex, contents } = outline.all;
  if (!isIndex && contents === undefined) return undefined;
  const kept = made.get('contents') && made.get('contents').deref();
  if (kept) return kept;
  const { sources } = map.counts;
  const contentAt = (index) => (index < sources ? addon.sourceContent(handle, index) : null);
  const list = numbersTo(isIndex ? sources : contents).map(contentAt);
  made.set('contents', new WeakRef(list));
  return list;
}

// The numbers of the sources that are marked as ignored.
const ignored = (handle) => numbersTo(addon.counts(handle).sources).filter((index) => addon.isIgnored(handle, index));

// What trace-mapping has as a map's own members. An index map has no sources of its own, and has their names. What is
// assigned to one takes its place.
const members = {
  version: (map) => open(map) && 3,
  file: (map) => {
    const file = addon.file(open(map));
    return file === null ? undefined : file;
  },
  names: (map) => once(map, 'names', () => numbersTo(map.counts.names).map((index) => map.nameAt(index))),
  sourceRoot: (map) => json(map, 'sourceRoot'),
  sources: (map) => (opened(map).outline.all.isIndex ? map.resolvedSources : json(map, 'sources')),
  sourcesContent: contentsOf,
  ignoreList: (map) => (opened(map).outline.all.isIndex ? once(map, 'ignored', ignored) : json(map, 'ignoreList')),
  resolvedSources: (map) =>
    once(map, 'resolvedSources', () => numbersTo(map.counts.sources).map((index) => map.sourceAt(index))),
};
const own = {};
for (const [key, make] of Object.entries(members)) {
  own[key] = {
    configurable: true,
    enumerable: true,
    get() {
      return make(this);
    },
    set(value) {
      Object.defineProperty(this, key, { value, writable: true });
    },
  };
}

// Leaves a map closed, whose handle is freed or is no more its own.
function empty(map) {
  map.inner.handle = undefined;
  map.inner.made.clear();
}

// Leaves out what was made of the names of a map's sources, which are others now.
function forget(map) {
  map.inner.made.clear();
  map.inner.sourceTexts.length = 0;
}

// A source map that was read: of a text, a Uint8Array or a parsed map, which stands at the URL or path `mapUrl`, if there is
// one. `options` are an interval, or `interval` and `maxNames`. What is given is not kept. It is freed by `close`, or when nothing
// names it any more. A TraceMap is itself.
class TraceMap {
  #inner;

  constructor(map, mapUrl, options) {
    if (map instanceof TraceMap) {
      open(map);
      return map;
    }
    if (map instanceof Made) {
      this.#begin(map);
      return;
    }
    const isText = typeof map === 'string';
    const others = isText ? null : given.mapBytes(map);
    const isUnder = mapUrl instanceof Under;
    const [base, how] = isUnder ? [] : [given.mapUrl(mapUrl), given.reading(options)];
    // No code of the user's runs while a short text stands in its room.
    const bytes = isText ? bytesOf(map) : others;
    const handle = isUnder ? standingUnder(mapUrl, bytes) : readAt(bytes, base, how);
    const outline = outlineIn(bytes, map, handle);
    this.#begin({ handle, outline, bytes: bytes.length });
  }

  #begin({ handle, outline, bytes }) {
    this.#inner = { handle, outline, bytes, made: new Map(), sourceTexts: [], nameTexts: [] };
    Object.defineProperties(this, own);
  }

  // By this another copy of this package knows it.
  get [given.COPIES]() {
    return true;
  }

  // The debug id, which the generated file names too: the text at `debugId`, or at `debug_id` where that is none.
  get debugId() {
    return opened(this).outline.debugId;
  }

  // What the calls of this library alone use.
  get inner() {
    return this.#inner;
  }

  get counts() {
    return addon.counts(open(this));
  }

  // About how many bytes of memory the map takes.
  get nbytes() {
    const { handle, outline } = opened(this);
    return addon.size(handle) + outline.size;
  }

  // Where a generated position comes from, the line from 1 and the column from 0: {source, line, column, name, ignored, index, lastColumn}, or
  // null where no mapping answers that has an original.
  placeAt(line, column) {
    ask(open(this), given.line(line), given.column(column), WHOLE_PLACE);
    if (room[3] !== 2) return null;
    // These first: where a text is made, a setter of the user's may look up something else.
    const [index, originalLine, originalColumn, ignored] = [room[5], room[6] + 1, room[7], room[ROOM_IGNORED] === 1];
    const name = room[8] ? room[9] : undefined;
    const lastColumn = columnOf(room[ROOM_LAST]);
    return {
      source: this.sourceAt(index),
      line: originalLine,
      column: originalColumn,
      name: name === undefined ? null : this.nameAt(name),
      ignored,
      index,
      lastColumn,
    };
  }

  // All sources, each {name, content, ignored}.
  get sourceEntries() {
    const handle = open(this);
    return this.resolvedSources.map((name, index) => ({
      name,
      content: addon.sourceContent(handle, index),
      ignored: addon.isIgnored(handle, index),
    }));
  }

  sourceAt(index) {
    const { sourceTexts } = this.#inner;
    if (sourceTexts[index] === undefined) sourceTexts[index] = addon.sourceName(open(this), index);
    return sourceTexts[index];
  }

  nameAt(index) {
    const { nameTexts } = this.#inner;
    if (nameTexts[index] === undefined) nameTexts[index] = addon.name(open(this), index);
    return nameTexts[index];
  }

  // Each mapping, as eachMapping has it.
  mappings() {
    return each(addon.mappings(open(this)), this.resolvedSources, this.names);
  }

  // How many bytes of the generated file, a text or a Uint8Array, come from each source, and from none.
  bytesBySource(generated) {
    const reported = addon.bytesBySource(open(this), given.bytes(generated, 'generated'));
    if (typeof reported === 'number') throw refusedAs(reported);
    const sources = Array.from(reported);
    const unmapped = sources.pop();
    return { sources, unmapped };
  }

  // How the map fits the generated file: whether it can be its map, and the counts that say so.
  fit(generated) {
    const counts = new Float64Array(7);
    const refusal = addon.fit(open(this), given.bytes(generated, 'generated'), counts);
    if (refusal !== undefined) throw refusedAs(refusal);
    const [mappings, past, inside, compared, outside, same, fits] = counts;
    return { fits: fits === 1, mappings, past, inside, compared, outside, same };
  }

  // Reads what the generated file, a text or a Uint8Array, declares, for `functionName`, and gives the map itself.
  withGenerated(generated) {
    const refusal = addon.withGenerated(open(this), given.bytes(generated, 'generated'));
    if (refusal !== undefined) throw refusedAs(refusal);
    return this;
  }

  // The name that a function has in its source, or null: it is called `name` in a frame at this generated position, the line from 1 and the
  // column from 0.
  functionName(line, column, name) {
    const bytes = Buffer.from(given.text(name, 'name'));
    return addon.functionName(open(this), given.line(line), given.column(column), bytes);
  }

  // The text of one regular map that states the same, as a Buffer; with `debugId` with its debug id, as the last member.
  write(options = undefined) {
    const text = addon.write(open(this), ...idOf(this, given.options(options, 'debugId').debugId));
    if (text === null) throw refusedAs(addon.codes.O1);
    return text;
  }

  // The map as an object, of which JSON is made; with `debugId` with its debug id. JSON.stringify gives the name that a map stands under.
  toJSON(options = undefined) {
    const { debugId = false } = typeof options === 'string' ? {} : given.options(options, 'debugId');
    const map = withMappings(this, encodedMappings(this));
    return given.boolean(debugId, 'debugId') ? { ...map, debugId: this.debugId } : map;
  }

  close() {
    if (this.#inner.handle) addon.closeMap(this.#inner.handle);
    empty(this);
  }

  [DISPOSE]() {
    this.close();
  }

  [inspect.custom](depth, options) {
    if (!this.#inner.handle) return 'TraceMap (closed)';
    return depth < 0 ? '[TraceMap]' : `TraceMap ${inspect({ ...this }, { ...options, depth })}`;
  }
}

// A line of the source of this number, from 0, with up to so many lines before and after it, at most 65,535 each: {before, line, after}, or
// null where its content has no such line. Of a line those characters are given that stand in its first 65,536 bytes.
function sourceContext(map, index, line, before = 2, after = 2) {
  const [front, back] = [given.count(before, 'before', 65535), given.count(after, 'after', 65535)];
  const lines = addon.sourceLines(open(map), given.source(index), given.line(line), front, back);
  if (lines === null) return null;
  const at = lines.shift();
  return { before: lines.slice(0, at), line: lines[at], after: lines.slice(at + 1) };
}

module.exports = {
  DISPOSE,
  Made,
  ROOM_HANDLE,
  ROOM_IGNORED,
  ROOM_LAST,
  TraceMap,
  NO_BYTES,
  USUALLY,
  Under,
  ask,
  columnOf,
  empty,
  encodedMappings,
  idOf,
  isPath,
  linesOf,
  named,
  namesOf,
  once,
  open,
  outlineIn,
  read,
  readAt,
  sourceContext,
  standingAt,
  standingUnder,
  withMappings,
};
