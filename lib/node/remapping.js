'use strict';
// The call of @ampproject/remapping: a map whose mappings lead on through the maps of its sources, which a loader gives.
const addon = require('./addon.js');
const given = require('./given.js');
const { TraceMap, NO_BYTES, USUALLY, namesOf, open, read, readAt } = require('./map.js');
const { refusedAs } = require('./refused.js');
const { decodedMappings } = require('./tracing.js');

const { C1, C2 } = addon.codes;

// What comes of it: an object as JSON has a map and, as a text, that JSON.
class SourceMap {
  constructor({ version, file, mappings, names, sources, sourcesContent, ignoreList }, excludeContent) {
    Object.assign(this, { version, file, mappings, names, sourceRoot: undefined, sources });
    if (!excludeContent) this.sourcesContent = sourcesContent || sources.map(() => null);
    if (ignoreList) this.ignoreList = ignoreList;
  }

  toString() {
    return JSON.stringify(this);
  }
}

// A map with what its sources lead to: its handle, by their numbers the handles of the maps of sources, which it owns too, and what the
// loader says of others.
class Traced {
  constructor(map, url) {
    this.handle = map instanceof TraceMap ? read(textOf(open(map)), '', USUALLY) : readAt(given.mapBytes(map), url, USUALLY);
    [this.inners, this.others] = [new Map(), new Map()];
  }

  // The text of the one map that they come to.
  text(prune, noContent) {
    if (this.inners.size || this.others.size) this.replace(read(this.#withSources(), '', USUALLY));
    const places = addon.newInners(this.handle);
    try {
      for (const [index, handle] of this.inners) if (!addon.putInner(places, index, handle)) throw refusedAs(C1);
      this.inners.clear();
      const text = addon.composeAll(this.handle, places, prune, noContent, false, NO_BYTES);
      if (typeof text === 'number') throw refusedAs(text);
      return text;
    } finally {
      addon.closeInners(places);
    }
  }

  // That map as a handle, which is the caller's. Nothing is left here.
  whole() {
    if (this.inners.size || this.others.size) this.replace(read(this.text(false, false), '', USUALLY));
    const { handle } = this;
    this.handle = undefined;
    return handle;
  }

  replace(handle) {
    addon.closeMap(this.handle);
    this.handle = handle;
  }

  // The text of the map with what the loader says of its sources. One that has a map has no name, so that the names stay which that leads to.
  #withSources() {
    const map = JSON.parse(textOf(this.handle));
    const { sources, sourcesContent = sources.map(() => null), ignoreList = [] } = map;
    const ignored = new Set(ignoreList);
    for (const index of this.inners.keys()) sources[index] = null;
    for (const [index, { source, content, ignore }] of this.others) {
      sources[index] = source;
      if (content !== undefined) sourcesContent[index] = content;
      if (ignore !== undefined) ignored[ignore ? 'add' : 'delete'](index);
    }
    return Buffer.from(JSON.stringify({ ...map, sources, sourcesContent, ignoreList: [...ignored].sort((a, b) => a - b) }));
  }

  close() {
    for (const handle of this.inners.values()) addon.closeMap(handle);
    if (this.handle) addon.closeMap(this.handle);
  }
}

// The text of a regular map that states the same.
function textOf(handle) {
  const text = addon.write(handle, false, NO_BYTES);
  if (text === null) throw refusedAs(C2);
  return text;
}

// Does something with a map, which is closed then.
function using(traced, use) {
  try {
    return use(traced);
  } finally {
    traced.close();
  }
}

// What the loader has left of what it was told of a source.
function checked({ source, content, ignore }) {
  given.text(source, 'source');
  if (content !== undefined && content !== null) given.text(content, 'content');
  if (ignore !== undefined) given.boolean(ignore, 'ignore');
  return { source, content, ignore };
}

// Asks for the map of each source, and then for those of the sources of that, before the next one.
function follow(traced, load, importer, depth) {
  namesOf(traced.handle).forEach((name, index) => {
    const context = { importer, depth, source: name === null ? '' : name, content: undefined, ignore: undefined };
    const map = load(context.source, context);
    const left = checked(context);
    if (map) traced.inners.set(index, using(new Traced(map, left.source), (inner) => follow(inner, load, left.source, depth + 1).whole()));
    else if (left.source !== (name === null ? '' : name) || left.content !== undefined || left.ignore !== undefined) traced.others.set(index, left);
  });
  return traced;
}

// A map of the last step before others, which are of its only source, each of the one before it.
function stepOf(map, number) {
  const traced = new Traced(map, '');
  const { sources } = addon.counts(traced.handle);
  if (sources <= 1) return traced;
  traced.close();
  throw new Error(`Transformation map ${number} must have exactly one source file.\nDid you specify these with the most recent transformation maps first?`);
}

// What the loader's maps and those of the steps before come to.
function made(steps, first, load, noContent) {
  follow(first, load, '', 1);
  let last = first;
  for (const step of steps.reverse()) {
    if (addon.counts(step.handle).sources) step.inners.set(0, last.whole());
    last = step;
  }
  return last.text(true, noContent);
}

// The map `input`, or the first of a list, of which each is of the only source of the one before it. The last is followed: `loader` is asked
// for the map of each of its sources, with the name and {importer, depth, source, content, ignore}, and so on for those of that map; it gives
// none for what is an original. What it puts into `source` is the name of that, or where its map stands, and `content` and `ignore` are those of
// an original. With `excludeContent` contents are left out, with `decodedMappings` mappings are lines of segments.
function remapping(input, loader, options) {
  const words = typeof options === 'boolean' ? { excludeContent: options } : given.options(options, 'excludeContent', 'decodedMappings');
  const { excludeContent = false, decodedMappings: isDecoded = false } = words;
  const noContent = given.boolean(excludeContent, 'excludeContent');
  given.boolean(isDecoded, 'decodedMappings');
  if (typeof loader !== 'function') throw new TypeError('`loader` must be a function');
  const maps = Array.isArray(input) ? input : [input];
  if (!maps.length) throw new TypeError('`input` must be a map, or a list of one or more');
  const all = [];
  try {
    for (const map of maps.slice(0, -1)) all.push(stepOf(map, all.length));
    all.push(new Traced(maps[maps.length - 1], ''));
    const text = made(all.slice(0, -1), all[all.length - 1], loader, noContent);
    const map = JSON.parse(text);
    if (isDecoded) map.mappings = linesIn(text);
    return new SourceMap(map, noContent);
  } finally {
    all.forEach((traced) => traced.close());
  }
}

// The mappings of a map's text as lines of segments.
function linesIn(text) {
  const map = new TraceMap(text);
  try {
    return decodedMappings(map);
  } finally {
    map.close();
  }
}

module.exports = { remapping };
