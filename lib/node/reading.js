'use strict';
// What is given under a URL is read, at once or by another thread.
const addon = require('./addon.js');
const given = require('./given.js');
const { Made, TraceMap, isPath, named, outlineIn, standingUnder } = require('./map.js');
const { Outline } = require('./outline.js');
const { reason, refusedMap } = require('./refused.js');

// A map of more bytes is read by another thread where that is waited for, and so many are copied at once before.
const [MOST_AT_ONCE, STEP] = [1 << 20, 1 << 20];

// What a refusal is, or for how much a map counts.
const numbers = new Float64Array(7);

// The parts of a text, each of whole characters, or of bytes, between which others have the loop.
async function* partsOf(map) {
  for (let [at, next] = [0, 0]; at < map.length; at = next) {
    next = at + STEP + (typeof map === 'string' && (map.charCodeAt(at + STEP - 1) & 0xfc00) === 0xd800);
    yield typeof map === 'string' ? map.slice(at, next) : map.subarray(at, next);
    await new Promise(setImmediate);
  }
}

// A copy of the bytes of a map, which nobody else has.
async function copied(map) {
  const [isText, { length }] = [typeof map === 'string', map];
  let [size, end, seemsHalf] = [isText ? 0 : length, 0, false];
  if (isText) for await (const part of partsOf(map)) size += Buffer.byteLength(part);
  const copy = Buffer.allocUnsafeSlow(size);
  for await (const part of partsOf(map)) {
    const begin = end;
    if (!isText) copy.set(part, begin);
    end += isText ? copy.write(part, begin) : part.length;
    seemsHalf = seemsHalf || (isText && copy.subarray(begin, end).includes('\ufffd'));
  }
  if (map.length !== length) throw new TypeError('the bytes of a map were taken away');
  if (seemsHalf) given.utf8(map, 'a map');
  return copy;
}

// What is given under a URL, to be kept there: a TraceMap, or what one is made of.
async function madeLater(under, map) {
  const isLarge = typeof map === 'string' || map instanceof Uint8Array ? map.length > MOST_AT_ONCE : false;
  if (!isLarge) return madeUnder(under, map);
  const { url, paths, how } = under;
  const [isByPath, bytes] = [paths && isPath(url), await copied(map)];
  const base = isByPath ? '' : url;
  const told = await addon.readLater(bytes, Buffer.from(base), true, given.intervalOf(how, bytes.length), how.maxNames);
  if (typeof told[0] === 'number') {
    const numbers = Float64Array.from(told.slice(0, 6));
    throw refusedMap(bytes, numbers, base, isByPath ? undefined : url, () => reason(told.slice(6, 10), told[10]));
  }
  return new Made(named(told[0], isByPath && url), Outline.of(bytes, told[0].debugId, told[1], told[2]), bytes.length);
}

function madeUnder(under, map) {
  if (map instanceof TraceMap) return new Made(standingUnder(under, map), map.inner.outline, map.inner.bytes, map);
  const bytes = given.mapBytes(map);
  const handle = standingUnder(under, bytes);
  return new Made(handle, outlineIn(bytes, map, handle), bytes.length);
}

// The map of a text or of bytes is read into a table, where that is all: what it is made of without a handle, and for how much it counts; or
// null.
function readInto(table, { url, paths, how }, map) {
  if ((typeof map !== 'string' && !(map instanceof Uint8Array)) || (paths && isPath(url))) return null;
  const bytes = given.mapBytes(map);
  const found = addon.readInto(table, url, bytes, Buffer.from(url), true, given.intervalOf(how, bytes.length), how.maxNames, numbers);
  if (found === undefined) throw refusedMap(bytes, numbers.slice(0, 6), url, url);
  const debugId = numbers[1] === 1 ? addon.texts[0] : undefined;
  const outline = found === null ? Outline.of(bytes, debugId) : new Outline(found, numbers[0], debugId);
  return { outline, bytes: bytes.length, size: numbers[6] };
}

module.exports = { madeLater, madeUnder, readInto };
