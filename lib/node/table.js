'use strict';
// Stack traces and other texts, rewritten over a table of maps.
const addon = require('./addon.js');
const given = require('./given.js');
const { DISPOSE, ROOM_HANDLE, ROOM_IGNORED, ROOM_LAST, TraceMap, columnOf, empty, standingUnder } = require('./map.js');
const { refusedUrl } = require('./refused.js');
const { Store } = require('./store.js');
const { begun, rewritten } = require('./texts.js');

const { room, texts } = addon;
// So many of the maps that were refused are remembered.
const MOST_REFUSALS = 100;
// A rewritten text has at most so many bytes, where nothing else is said.
const MOST_OUTPUT = 2 ** 30;

// What is told of maps that are not read: to a function, or else kept.
class Told {
  constructor(refused) {
    this.refused = given.callable(refused, 'refused');
    this.refusals = [];
  }

  tell(url, error) {
    if (this.refused) this.refused(url, error);
    else if (this.refusals.length < MOST_REFUSALS) this.refusals.push({ url, error });
  }

  // Where a place in the file of a URL comes from, the line from 1 and the column from 0: {source, line, column, name, ignored, index,
  // lastColumn}, or null where it has no map, or that no original.
  lookUp(url, line, column) {
    const [named, line0, column0] = [given.text(url, 'url'), given.line(line), given.column(column)];
    const find = (asked) => {
      [room[0], room[1], room[ROOM_HANDLE]] = [line0, column0, this.inner.open.place];
      return addon.findPlace(asked);
    };
    const source = this.inner.found(find, named, undefined);
    if (source === undefined || room[3] !== 2) return null;
    const [ignored, lastColumn] = [room[ROOM_IGNORED] === 1, columnOf(room[ROOM_LAST])];
    return { source, line: room[6] + 1, column: room[7], name: room[8] ? texts[0] : null, ignored, index: room[5], lastColumn };
  }
}

// Maps, each under the URL that frames name: an object or pairs of a URL and a map's text, Uint8Array or TraceMap. A
// TraceMap that is given is closed: the table has it then. `load` is asked for the map of each URL or path that is not among
// them, without query and fragment, once, when a frame or a place first names it, and gives null or undefined where there is
// none. What it throws, and why its map is refused, is told to `refused`, or else kept in `refusals`, of which there are 100
// at most; the frames stay, and it is asked again after a time. A URL that begins with `*` is a pattern: its map is that of each URL that
// ends with the text behind it, where a piece of the URL begins, with or without query and fragment, if no map is under the URL; of several
// the longest text decides: `*app.js` serves all of that name, and `*.js` only what is called `.js`. With `paths` relative sources go on from the folder of a URL that is an absolute path, as node prints them.
// `maxNames` is for each map that is read here. It is freed as a TraceMap is.
class Table extends Told {
  constructor(maps, options) {
    const words = given.options(options, 'load', 'refused', 'paths', 'maxNames', 'retryAfter', 'noneFor');
    super(words.refused);
    given.reading({ maxNames: words.maxNames });
    if (typeof maps !== 'object' || maps === null) throw new TypeError('`maps` must be an object or pairs of a URL and a map');
    this.counts = null;
    this.inner = new Store(this, { ...words, isNamed: true, came: (url, { map }) => map && map.close() }, Number.MAX_SAFE_INTEGER);
    for (const [url, map] of maps[Symbol.iterator] ? maps : Object.entries(maps)) this.#put(given.text(url, 'URL'), map);
  }

  // Puts a map into the table.
  #put(url, map) {
    const bytes = given.utf8(url, '`URL`');
    const reported = addon.add(this.inner.open, bytes, standingUnder(this.inner.under(url), map));
    if (typeof reported === 'number') throw refusedUrl(reported, url);
    if (map instanceof TraceMap) empty(map);
  }

  lookUp(url, line, column) {
    given.utf8(given.text(url, 'url'), '`url`');
    return super.lookUp(url, line, column);
  }

  close() {
    if (this.inner.handle) addon.closeTable(this.inner.handle);
    this.inner.handle = undefined;
  }

  [DISPOSE]() {
    this.close();
  }
}

// What is known of URLs by a table that is open, or by Maps.
function storeOf(table) {
  if (!(table instanceof Told)) throw new TypeError('a Table is wanted');
  return table.inner.open && table.inner;
}

// What `rewrite` and a stream are asked: whether lines of ignored sources are hidden, whether places anywhere are rewritten,
// whether the text is read without the control sequences that colour a terminal, and how many bytes may come out.
function rewriting(options) {
  const words = given.options(options, 'hideIgnored', 'anywhere', 'stripAnsi', 'maxOutput');
  const { hideIgnored = false, anywhere = false, stripAnsi = false, maxOutput = MOST_OUTPUT } = words;
  const [hide, places] = [given.boolean(hideIgnored, 'hideIgnored'), given.boolean(anywhere, 'anywhere')];
  if (hide && places) throw new Error('`hideIgnored` with `anywhere`');
  const most = given.count(maxOutput, 'maxOutput', Number.MAX_SAFE_INTEGER);
  return { hide, places, strip: given.boolean(stripAnsi, 'stripAnsi'), most };
}

function counted([lines, frames, mapped, hidden], { places }) {
  return places ? { lines, places: frames, mapped } : { lines, frames, mapped, hidden };
}

// A text that comes whole.
function wholePart(bytes, { most }) {
  return { bytes, most, isLast: true };
}

// The trace with each frame that has an original in its place, as a Buffer; with `anywhere` each place URL:line:column,
// wherever it stands. `table.counts` then says how many lines, frames or places it had, and how many were mapped and hidden.
function rewrite(table, trace, options) {
  const store = storeOf(table);
  const how = rewriting(options);
  const { text, numbers } = rewritten(store, begun(store, how), wholePart(given.bytes(trace, 'trace'), how));
  table.counts = counted(numbers, how);
  return text;
}

module.exports = { Table, Told, counted, rewrite, rewriting, storeOf, wholePart };
