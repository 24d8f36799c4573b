'use strict';
// Maps by URL, within a bound of memory, and what is asked of them.
const fs = require('fs');
const { performance } = require('perf_hooks');
const addon = require('./addon.js');
const given = require('./given.js');
const { Made, TraceMap, sourceContext } = require('./map.js');
const { madeUnder } = require('./reading.js');
const { refusedAs } = require('./refused.js');
const { Store } = require('./store.js');
const { Told, counted, rewriting, storeOf, wholePart } = require('./table.js');
const { begun, locationsIn, rewrittenLater } = require('./texts.js');

// A map file with more bytes is refused, and read no further.
const MOST_FILE = 67108864;

// So many URLs are near at most.
const MOST_NEAR = 1000;

// A URL or a prefix, which is no pattern.
function whole(url, name) {
  if (given.text(url, name).startsWith('*')) throw new Error(`\`${name}\` is a pattern`);
  return url;
}

// Maps by URL. `load` is asked for the map of a URL when it is first wanted, and gives it, or null or undefined where there is none, as
// for a Table, as are `paths` and `maxNames`; `loadAsync` gives a promise of it. Maps are kept while they count for at most `maxBytes` bytes of
// memory, or one by itself: what was longest not asked for goes first. What both throw, and why a map is refused, is told to `refused`, or
// else kept in `refusals`, of which there are 100 at most; that URL is asked for again after `retryAfter` seconds, and twice as many
// after each failure in a row, up to ten minutes, and one without a map after `noneFor` seconds, if they are given.
class Maps extends Told {
  // Of each map that was put what its text has, for how much it counts, and its TraceMap, which others may have.
  #kept = new Map();
  #mostKept = 16;
  // The URLs that were asked for since what is known has changed, by their last use, of which the store is told before it changes again; with
  // their TraceMaps, where they were asked for twice.
  #near = new Map();
  #lent = new WeakSet();
  #most;

  constructor(options) {
    const words = given.options(options, 'load', 'loadAsync', 'maxBytes', 'refused', 'atOnce', 'paths', 'maxNames', 'retryAfter', 'noneFor');
    super(words.refused);
    const { load, loadAsync } = words;
    for (const [call, name] of [[load, 'load'], [loadAsync, 'loadAsync']]) given.callable(call, name);
    if (!load && !loadAsync) throw new TypeError('`load` or `loadAsync` is wanted');
    this.#most = given.count(words.maxBytes, 'maxBytes', Number.MAX_SAFE_INTEGER);
    this.inner = new Store(this, { ...words, came: (url, made, size) => this.#came(url, made, size) }, this.#most);
    this.inner.settles = () => this.#settle();
    this.counts = null;
  }

  // The maps of the URLs that begin with this prefix, which ends in `/`, in a folder, as the program has them of `PREFIX=FOLDER/`: that of
  // PREFIXjs/app.js is js/app.js.map. No URL leads out of the folder. A file that is not there is no map; that the folder is not there is
  // told once. After `freshFor` seconds a file is looked at again, and read where it has changed; where that is refused, its map stays.
  static folder(prefix, root, options) {
    if (!whole(prefix, 'prefix').endsWith('/')) throw new Error('a prefix ends in /');
    const { freshFor, ...words } = given.options(options, 'maxBytes', 'refused', 'paths', 'maxNames', 'retryAfter', 'noneFor', 'freshFor');
    const [front, folder, fresh] = [given.utf8(prefix, '`prefix`'), given.utf8(`${given.text(root, 'root')}/`, '`root`'), given.time(freshFor, 'freshFor', null)];
    const files = new Map();
    let isTold = false;
    const load = (url) => {
      const name = addon.folderPath(front, folder, Buffer.from(url));
      if (name === null) return null;
      const stamp = fresh === null ? null : stampOf(name);
      files.delete(url);
      if (stamp !== null) files.set(url, { name, stamp, due: performance.now() + fresh });
      const bytes = readFile(name);
      if (bytes === null && !isTold) {
        // It stays so where there is no folder: then this throws.
        isTold = true;
        fs.statSync(folder);
        isTold = false;
      }
      return bytes;
    };
    const maps = new Maps({ ...words, load });
    if (fresh !== null) maps.inner.renews = () => maps.#renew(files, fresh);
    return maps;
  }

  // Looks at the files again whose time has come, of which there are maps.
  #renew(files, fresh) {
    const now = performance.now();
    for (const [url, file] of files) {
      if (file.due > now) break;
      files.delete(url);
      if (!this.inner.holds(url)) continue;
      if (stampOf(file.name) === file.stamp) files.set(url, { ...file, due: now + Math.max(fresh, 1) });
      else this.inner.ask(url, undefined, true);
    }
  }

  get maxBytes() {
    return this.#most;
  }

  set maxBytes(value) {
    this.#most = given.count(value, 'maxBytes', Number.MAX_SAFE_INTEGER);
    this.#move(this.#kept);
  }

  // For how many bytes of memory what is kept counts, and how many maps are kept.
  get nbytes() {
    const [bytes, , noneBytes] = addon.tableCounts(this.inner.changing, new Float64Array(7));
    return bytes + noneBytes;
  }

  get size() {
    return addon.tableCounts(this.inner.open, new Float64Array(7))[1];
  }

  has(url) {
    return this.inner.has(given.text(url, 'url'));
  }

  lookUp(url, line, column) {
    if (this.#near.has(url)) {
      const map = this.#mapOf(url);
      return map && map.placeAt(line, column);
    }
    const place = super.lookUp(url, line, column);
    this.#use(url, null);
    return place;
  }

  // The map of a URL or, where none was added under it, of that without its query and its fragment; or null.
  get(url) {
    const map = this.#mapOf(given.text(url, 'url'));
    if (map) this.#lent.add(map);
    return map;
  }

  #mapOf(url) {
    if (this.inner.renews) this.inner.renews();
    let map = this.#near.get(url);
    if (!map || !map.inner.handle) {
      const key = this.inner.found((asked) => this.inner.asked(addon.keyOfMap, asked), url, null);
      if (key === null) return null;
      const kept = this.#kept.get(key);
      map = kept.map && kept.map.deref();
      if (!map || !map.inner.handle) map = new TraceMap(new Made(this.inner.asked(addon.mapAt, key), kept.outline, kept.bytes));
      kept.map = new WeakRef(map);
    }
    this.#use(url, map);
    return map;
  }

  #use(url, map) {
    this.#near.delete(url);
    if (this.#near.size >= MOST_NEAR) this.#settle();
    this.#near.set(url, map);
  }

  // Tells the store what was used, and for how much a map counts that has an index of originals now.
  #settle() {
    if (this.#near.size === 0) return;
    const near = [...this.#near];
    this.#near.clear();
    for (const [url, map] of near) {
      const key = this.inner.asked(addon.keyOfMap, url);
      if (!map || !map.inner.handle) continue;
      const [kept, { nbytes }] = [this.#kept.get(key), map];
      if (!this.#lent.has(map)) map.close();
      else if (kept && kept.size !== nbytes) addon.put(this.inner.open, key, map.inner.handle, (kept.size = nbytes));
    }
  }

  // A line of a source of a URL's map with those around it, as sourceContext.
  context(url, index, line, before, after) {
    const map = this.#mapOf(given.text(url, 'url'));
    return map && sourceContext(map, index, line, before, after);
  }

  // Puts a map under this very URL, in place of what is kept of it. With `generated`, its generated file, functions of frames get the names of
  // their sources, and the map counts for what that declares. A pattern is no URL here.
  add(url, map, options = undefined) {
    const { generated } = given.options(options, 'generated');
    const under = this.inner.under(whole(url, 'url'));
    this.inner.put(url, generated === undefined ? madeUnder(under, map) : withFile(madeUnder(under, map), generated));
  }

  // Drops what is kept of a URL, so that its map is asked for anew.
  discard(url) {
    this.inner.discard(given.text(url, 'url'));
  }

  // Asks `loadAsync`, or `load`, for the maps of these URLs that are not known, so many at once.
  async load(urls) {
    await this.inner.fill(given.texts(urls, 'urls'));
  }

  close() {
    this.#move([]);
    this.#kept.clear();
  }

  // Another store within the bound, with the maps under these URLs that this one has.
  #move(urls) {
    const [old, handle] = [this.inner.changing, addon.newTable(this.#most)];
    for (const [url, { size }] of urls) {
      const map = this.inner.asked(addon.mapAt, url);
      if (map === null) continue;
      addon.put(handle, url, map, size);
      addon.closeMap(map);
    }
    this.inner.handle = handle;
    addon.closeTable(old);
  }

  // A map was put: what is said of those that were dropped goes, too, from time to time.
  #came(url, { outline, bytes, map }, size) {
    this.#kept.set(url, { outline, bytes, size, map: map && new WeakRef(map) });
    if (map) this.#lent.add(map);
    if (this.#kept.size <= this.#mostKept) return;
    const left = this.#kept.size > 2 * this.size ? this.#kept.keys() : [];
    for (const key of left) if (!this.inner.holds(key)) this.#kept.delete(key);
    this.#mostKept = 2 * this.#kept.size + 16;
  }
}

// What was made of a map, which has read what its generated file declares.
function withFile(made, generated) {
  const refusal = addon.withGenerated(made.handle, given.bytes(generated, 'generated'));
  if (refusal === undefined) return made;
  if (!made.map) addon.closeMap(made.handle);
  throw refusedAs(refusal);
}

// When a file was written, which file it is and how long, or null where there is none.
function stampOf(name) {
  try {
    const { mtimeNs, ctimeNs, ino, size } = fs.statSync(name, { bigint: true });
    return `${mtimeNs} ${ctimeNs} ${ino} ${size}`;
  } catch {
    return null;
  }
}

// The bytes of a file, of which no more are read than one that is too large for a map has, or null where there is none.
function readFile(name) {
  let file;
  try {
    file = fs.openSync(name, 'r');
  } catch (error) {
    if (error.code === 'ENOENT' || error.code === 'ENOTDIR') return null;
    throw error;
  }
  try {
    const { size } = fs.fstatSync(file);
    if (size <= MOST_FILE) return fs.readFileSync(file);
    const bytes = Buffer.alloc(MOST_FILE + 1);
    return bytes.subarray(0, fs.readSync(file, bytes, 0, bytes.length, 0));
  } finally {
    fs.closeSync(file);
  }
}

// The URLs and paths for whose maps a loader would be asked, without query and fragment: those of the frames or, with `anywhere`, of the
// places of a text, each once, in their order.
function frameUrls(trace, options) {
  return locationsIn(given.bytes(trace, 'trace'), rewriting(given.options(options, 'anywhere')));
}

// What `rewrite` gives over maps that are waited for.
async function rewriteAsync(maps, trace, options) {
  if (!(maps instanceof Maps)) throw new TypeError('Maps are wanted');
  const how = rewriting(options);
  const [store, bytes] = [storeOf(maps), given.bytes(trace, 'trace')];
  const part = wholePart(bytes, how);
  const { text, numbers } = await rewrittenLater(store, begun(store, how), part, undefined, { ...how, ahead: bytes });
  maps.counts = counted(numbers, how);
  return text;
}

module.exports = { Maps, frameUrls, rewriteAsync };
