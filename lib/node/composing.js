'use strict';
// Maps composed with the maps of their sources.
const addon = require('./addon.js');
const given = require('./given.js');
const { TraceMap, NO_BYTES, USUALLY, idOf, namesOf, open, read, standingAt } = require('./map.js');
const { refusedAs } = require('./refused.js');

const { C1, C2, C4 } = addon.codes;

// The text of the map that two maps come to, the inner one being of this source of the outer one, from 0; as a Buffer. With `debugId` it has
// that of the outer one.
function compose(outer, source, inner, options = undefined) {
  const { debugId } = given.options(options, 'debugId');
  const [first, second, index] = [open(outer), open(inner), given.source(source)];
  if (first === second) return composedWithItself(outer, index, options);
  return textOf(addon.compose(first, index, second, ...idOf(outer, debugId)));
}

// No call of the library takes one handle twice, so the map is written and read again.
function composedWithItself(map, source, options) {
  const text = addon.write(open(map), false, NO_BYTES);
  // Where it is too large to be written, so is what it would come to, which has the same generated positions.
  if (text === null) throw refusedAs(source < map.counts.sources ? C2 : C1);
  const copy = new TraceMap(text);
  try {
    return compose(map, source, copy, options);
  } finally {
    copy.close();
  }
}

// The text of the map that a map and the maps of its sources come to, all at once; as a Buffer. `inners` are an object or
// pairs of a source's name, or in a pair its number from 0, and a map's text, Uint8Array or TraceMap. `load` is asked by
// name for the map of each source that has none among them, and then for those of the sources of the maps that were found, and so
// on; it gives null or undefined where there is none. It is asked once for each name. A source is not followed where it is
// one of those that lead to it. What is read here stands at the name of its source where that is a URL. With `prune` sources
// and names that no mapping has are left out, and of equal ones all but the first; with `noContent` the contents of the
// sources. With `debugId` that of the outer map stays. A TraceMap is copied, and stays open.
function composeAll(outer, inners = {}, options = undefined) {
  const { load, prune = false, noContent = false, debugId } = given.options(options, 'load', 'prune', 'noContent', 'debugId');
  const [handle, loader] = [open(outer), given.callable(load, 'load')];
  const [isPruned, isBare, id] = [given.boolean(prune, 'prune'), given.boolean(noContent, 'noContent'), idOf(outer, debugId)];
  const names = namesOf(handle);
  const placed = byNumber(names, inners);
  const places = addon.newInners(handle);
  try {
    placed.forEach((map, number) => put(places, number, names[number], map));
    if (loader) ask(handle, places, loader);
    return textOf(addon.composeAll(handle, places, isPruned, isBare, ...id));
  } finally {
    addon.closeInners(places);
  }
}

// The inner maps by the numbers of the sources that they are of.
function byNumber(names, inners) {
  if (typeof inners !== 'object' || inners === null) {
    throw new TypeError('`inners` must be an object or pairs of a source and a map');
  }
  const named = new Map();
  names.forEach((name, number) => {
    if (named.has(name)) named.get(name).push(number);
    else named.set(name, [number]);
  });
  const placed = new Map();
  for (const [key, map] of inners[Symbol.iterator] ? inners : Object.entries(inners)) {
    const numbers = typeof key === 'string' ? named.get(key) : [given.source(key)];
    if (numbers === undefined) throw refusedAs(C4, ` ${key}`);
    for (const number of numbers) {
      if (placed.has(number)) throw new Error(`source ${number} has two maps`);
      placed.set(number, map);
    }
  }
  return placed;
}

// Asks by name for the map of each source of which one is wanted.
function ask(handle, places, load) {
  const loaded = new Map();
  for (let number; (number = addon.nextInner(handle, places)) !== null; ) {
    if (number < 0) throw refusedAs(-number);
    const name = addon.innerName(handle, places, number);
    if (!loaded.has(name)) loaded.set(name, load(name));
    const map = loaded.get(name);
    if (map !== null && map !== undefined) put(places, number, name, map);
  }
}

// Puts a map in the place of a source of this name. The place owns it, so a TraceMap is copied.
function put(places, number, name, map) {
  const handle = map instanceof TraceMap ? read(map.write(), '', USUALLY) : standingAt(given.mapBytes(map), name);
  if (addon.putInner(places, number, handle)) return;
  addon.closeMap(handle);
  throw refusedAs(C1);
}

// The text that a call of the addon gives, or else the code of its refusal.
function textOf(reported) {
  if (typeof reported === 'number') throw refusedAs(reported);
  return reported;
}

module.exports = { compose, composeAll };
