'use strict';
// Checks what was given: what no call of the library may get is refused here, and never read as something else.
const { isUint8Array, isUint32Array, isAnyArrayBuffer, isSharedArrayBuffer } = require('util').types;
const { encoded, numbersOf } = require('./mappings.js');
const { seemingPath } = require('./refused.js');

// The greatest number of 32 bits. No map has a line, a column or a source of this number or a greater one.
const MOST = 4294967295;
// The names of the sources of a map are made of at most so many bytes, where nothing else is said.
const MOST_NAMES = 2 ** 28;
// The library takes so many segments between checkpoints at most.
const MOST_INTERVAL = 4096;

const kind = (value) => (value === null || value === undefined ? `${value}` : typeof value === 'object' ? 'an object' : `a ${typeof value}`);

// A whole number, or Infinity of either sign.
function whole(value, what) {
  if (typeof value !== 'number') throw new TypeError(`\`${what}\` must be a whole number, and not ${kind(value)}`);
  if (!Number.isInteger(value) && Math.abs(value) !== Infinity) {
    throw new TypeError(`\`${what}\` must be a whole number, and not ${value}`);
  }
  return value;
}

// A line from 1, as one from 0. Past the greatest number there is as much as at it: nothing.
function line(value) {
  if (whole(value, 'line') < 1) throw new Error('`line` must be greater than 0 (lines start at line 1)');
  return Math.min(value - 1, MOST);
}

// A line from 0.
function lineFromZero(value) {
  if (whole(value, 'line') < 0) throw new Error('`line` must be greater than or equal to 0 (lines start at line 0 here)');
  return Math.min(value, MOST);
}

// A column from 0.
function column(value) {
  if (whole(value, 'column') < 0) {
    throw new Error('`column` must be greater than or equal to 0 (columns start at column 0)');
  }
  return Math.min(value, MOST);
}

// The number of a source. One that none can have is the greatest, which none has.
function source(value) {
  return whole(value, 'source') >= 0 ? Math.min(value, MOST) : MOST;
}

// How many segments stand between checkpoints of a map of so many bytes: where nothing is said, few in a small one, which is looked up faster
// so, and takes little more memory.
const [SMALL, IN_SMALL, USUAL] = [1 << 20, 8, 64];
const intervalOf = ({ interval: each }, size) => (each === undefined ? (size < SMALL ? IN_SMALL : USUAL) : each);

// How a map is read: an interval, if one is given, by itself or among others, and of how many bytes the names of its sources may be together.
function reading(value) {
  const words = typeof value === 'object' && value !== null ? options(value, 'interval', 'maxNames') : { interval: value };
  const { interval: each, maxNames = MOST_NAMES } = words;
  const asked = each === undefined ? each : count(each, 'interval', MOST_INTERVAL, 1);
  return { interval: asked, maxNames: count(maxNames, 'maxNames', Number.MAX_SAFE_INTEGER) };
}

// A number from a least, up to a greatest.
function count(value, what, most, least = 0) {
  if (!Number.isInteger(value)) throw new TypeError(`\`${what}\` must be a whole number, and not ${typeof value === 'number' ? value : kind(value)}`);
  if (value < least || value > most) throw new RangeError(`\`${what}\` must be ${least} to ${most}, and not ${value}`);
  return value;
}

// Milliseconds of seconds, or null for what is for ever.
function time(seconds, what, usual) {
  if (seconds === undefined) return usual;
  if (typeof seconds !== 'number' || !(seconds >= 0)) throw new TypeError(`\`${what}\` must be a number of seconds`);
  return Number.isFinite(seconds) ? Math.min(Math.ceil(seconds * 1000), Number.MAX_SAFE_INTEGER) : null;
}

// Lines from 1 and columns from 0 in turn.
function positions(value) {
  if (!isUint32Array(value)) throw new TypeError('`positions` must be a Uint32Array');
  if (value.length % 2) throw new TypeError('`positions` must be of even length: a line and a column each');
  return isSharedArrayBuffer(value.buffer) ? Uint32Array.from(value) : value;
}

// What is given, where no other thread can change it: shared bytes are copied, since those that are read have to stay.
function steady(value) {
  return isUint8Array(value) && isSharedArrayBuffer(value.buffer) ? Buffer.from(value) : value;
}

// Whether each half of a pair of units stands beside the other one. Where node has a call for that, it takes an eighth of the time.
const isWellFormed = (value) => (value.isWellFormed ? value.isWellFormed() : !/\p{Surrogate}/u.test(value));

// The bytes of a text. Half of a pair of units has none, where it stands alone.
function utf8(value, what) {
  const made = Buffer.from(value);
  if (made.length !== value.length && made.includes('\ufffd') && !isWellFormed(value)) {
    throw new TypeError(`${what} has half of a surrogate pair alone`);
  }
  return made;
}

// These bytes as a Buffer, which are not copied.
const asBuffer = (bytes) => (Buffer.isBuffer(bytes) ? bytes : Buffer.from(bytes.buffer, bytes.byteOffset, bytes.length));

// Each TraceMap has this key, by which one is known that another copy of this package made.
const COPIES = Symbol.for('smap.TraceMap');
const isAnyTraceMap = (value) => typeof value === 'object' && value !== null && value[COPIES] === true;

// Whether a text looks like the path of a map.
const seemsPath = (value) => value.length > 0 && value.length <= 4096 && !value.includes('{') && !value.includes('\n');

// The bytes of a map: those given, those of its text, or those of a parsed map as JSON.
function mapBytes(value) {
  if (isUint8Array(value)) return asBuffer(steady(value));
  if (typeof value === 'string') return seemsPath(value) ? seemingPath(utf8(value, 'a map')) : utf8(value, 'a map');
  if (typeof value !== 'object' || value === null || ArrayBuffer.isView(value) || isAnyArrayBuffer(value)) {
    throw new TypeError('a map must be a text, a Uint8Array or a parsed map');
  }
  if (isAnyTraceMap(value)) return value.write();
  if (value.type === 'Buffer' && Array.isArray(value.data)) {
    throw new TypeError('a map must be a text, a Uint8Array or a parsed map, and this is what JSON makes of a Buffer');
  }
  if (typeof value.then === 'function') throw new TypeError('a map must be a text, a Uint8Array or a parsed map, and not a promise of one');
  return Buffer.from(JSON.stringify(withText(typeof value.toJSON === 'function' ? value.toJSON() : value)));
}

const isObject = (value) => typeof value === 'object' && value !== null && !Array.isArray(value);

// A parsed map, whose mappings are a text where they were decoded. Such a map need not say its version.
function withText(map) {
  if (!isObject(map)) return map;
  if (Array.isArray(map.sections)) {
    const section = (value) => (isObject(value) ? { ...value, map: withText(value.map) } : value);
    return { ...map, sections: map.sections.map(section) };
  }
  const { version = 3, mappings } = map;
  return Array.isArray(mappings) ? { ...map, version, mappings: encoded(numbersOf(mappings), mappings.length) } : map;
}

// The bytes of a text or of a Uint8Array.
function bytes(value, what) {
  return isUint8Array(value) ? asBuffer(steady(value)) : utf8(text(value, what, ' or a Uint8Array'), `\`${what}\``);
}

function text(value, what, more = '') {
  if (typeof value !== 'string') throw new TypeError(`\`${what}\` must be a text${more}, and not ${kind(value)}`);
  return value;
}

// The name of a source, or null, which is that of one without a name.
const sourceName = (value) => (value === null ? value : text(value, 'source'));

// Whether the direction of a look-up is on from the position, of one of two numbers as trace-mapping has them; or what is usual.
function isAfter(bias, usual = false) {
  if (bias === undefined || bias === null) return usual;
  if (bias !== 1 && bias !== -1) throw new TypeError('`bias` must be GREATEST_LOWER_BOUND or LEAST_UPPER_BOUND');
  return bias === -1;
}

// Texts, one after the other.
function texts(value, what) {
  if (typeof value !== 'object' || value === null || !value[Symbol.iterator]) {
    throw new TypeError(`\`${what}\` must be a list of texts, and not ${kind(value)}`);
  }
  return [...value].map((each) => text(each, what));
}

// The URL or path at which a map stands, or '' for none.
function mapUrl(value) {
  if (value === undefined || value === null) return '';
  const url = value instanceof URL ? value.href : text(value, 'mapUrl');
  utf8(url, '`mapUrl`');
  return url;
}

function boolean(value, what) {
  if (typeof value !== 'boolean') throw new TypeError(`\`${what}\` must be true or false, and not ${kind(value)}`);
  return value;
}

// What is to be called, if there is such a function.
function callable(value, what) {
  if (value !== undefined && typeof value !== 'function') throw new TypeError(`\`${what}\` must be a function, and not ${kind(value)}`);
  return value;
}

// The options that were given, of which there are no others than these.
function options(value, ...known) {
  if (value === undefined) return {};
  if (typeof value !== 'object' || value === null) throw new TypeError(`the options must be an object, and not ${kind(value)}`);
  const other = Object.keys(value).find((key) => !known.includes(key));
  if (other !== undefined) throw new TypeError(`\`${other}\` is no option here: there are \`${known.join('`, `')}\``);
  return value;
}

module.exports = { COPIES, boolean, bytes, callable, column, count, intervalOf, isAfter, isAnyTraceMap, line, lineFromZero, mapBytes, mapUrl, options, positions, reading, seemsPath, source, sourceName, steady, text, texts, time, utf8 };
