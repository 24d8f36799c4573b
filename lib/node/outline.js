'use strict';
// What the text of a map has that the library does not hand out, found without a copy of the map.
const addon = require('./addon.js');

const [LF, BACKSLASH, COMMA, SEMICOLON] = [10, 92, 44, 59];

// Where the JSON of a map begins: behind a mark of its encoding, and behind a first line that keeps it from being run.
function begin(bytes) {
  const at = bytes[0] === 0xef ? 3 : 0;
  return bytes[at] === 0x29 ? bytes.indexOf(LF, at) : at;
}

const numbersTo = (count) => Array.from({ length: count }, (_, index) => index);
const textOf = (bytes, [from, to]) => bytes.toString('utf8', from, to);

// Where the values stand of the object that begins at this byte, by their keys. What is null is as not there.
function members(bytes, at, parts = addon.members(bytes, at)) {
  const found = new Map();
  for (let i = 0; i < parts.length; i += 4) {
    const key = bytes.toString('latin1', parts[i] + 1, parts[i + 1] - 1);
    const value = [parts[i + 2], parts[i + 3]];
    const isNull = value[1] - value[0] === 4 && textOf(bytes, value) === 'null';
    found.set(key.includes('\\') ? JSON.parse(`"${key}"`) : key, isNull ? undefined : value);
  }
  return found;
}

// How many lines begin in a text of mappings behind its last segment.
function linesBehind(bytes, [from, to]) {
  const quoted = bytes.subarray(from, to);
  const text = quoted.includes(BACKSLASH) ? Buffer.from(JSON.parse(quoted.toString())) : quoted.subarray(1, -1);
  let lines = 0;
  for (let at = text.length - 1; text[at] === SEMICOLON || text[at] === COMMA; at--) if (text[at] === SEMICOLON) lines += 1;
  return lines;
}

// How many lines an index map has at least, up to that in which its last section begins, and how many behind the last segment.
function linesOfSections(bytes, at) {
  const parts = addon.members(bytes, at);
  if (!parts.length) return { least: 0, behind: 0 };
  const section = members(bytes, parts[parts.length - 2]);
  const line = members(bytes, section.get('offset')[0]).get('line');
  const mappings = members(bytes, section.get('map')[0]).get('mappings');
  return { least: JSON.parse(textOf(bytes, line)) + 1, behind: linesBehind(bytes, mappings) };
}

// What the text of a map has: how many lines at least, and how many behind its last segment. Of a regular map also its sources,
// its root and its list of ignored sources, as JSON where they are there, and how many contents there are. Where the members stand, and
// how many contents, may be known.
function outlineOf(bytes, parts, count) {
  const map = members(bytes, begin(bytes), parts);
  const sections = map.get('sections');
  const text = (key) => map.get(key) && textOf(bytes, map.get(key));
  if (sections) return { isIndex: true, ...linesOfSections(bytes, sections[0]) };
  const contents = map.get('sourcesContent');
  return {
    isIndex: false,
    least: 1,
    behind: linesBehind(bytes, map.get('mappings')),
    sources: text('sources'),
    sourceRoot: text('sourceRoot'),
    ignoreList: text('ignoreList') || text('x_google_ignoreList'),
    contents: contents && (count || addon.members(bytes, contents[0]).length / 4),
  };
}

// How many bytes the addon has found.
const kept = new Float64Array(1);

// An outline, of so many bytes of the text, and the debug id that the map has, if it has one. What the addon has found, as JSON, is read when
// it is first wanted.
class Outline {
  #found;
  #isParsed = false;

  constructor(found, size, debugId) {
    [this.#found, this.size, this.debugId] = [found, size, debugId];
  }

  // That of a text, in which the addon may find it; where its parts are known, and how many contents there are, as outlineOf has them.
  static of(bytes, debugId, parts, count) {
    const found = parts ? null : addon.outline(bytes, kept);
    if (found !== null) return new Outline(found, kept[0], debugId);
    const outline = outlineOf(bytes, parts, count);
    const { sources = '', sourceRoot = '', ignoreList = '' } = outline;
    return new Outline(outline, sources.length + sourceRoot.length + ignoreList.length, debugId);
  }

  get all() {
    if (typeof this.#found === 'string') {
      this.#found = { isIndex: false, least: 1, ...JSON.parse(this.#found) };
      this.#isParsed = true;
    }
    return this.#found;
  }

  // A value of the text by its key, made anew: it is the user's.
  value(key) {
    const value = this.all[key];
    return value && JSON.parse(this.#isParsed ? JSON.stringify(value) : value);
  }
}

module.exports = { Outline, numbersTo };
