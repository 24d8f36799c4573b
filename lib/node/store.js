'use strict';
// Maps by URL, of those that are given and of those that a loader gives: what is wanted is loaded and put.
const addon = require('./addon.js');
const given = require('./given.js');
const { ROOM_HANDLE, Under } = require('./map.js');
const { madeLater, madeUnder, readInto } = require('./reading.js');
const { refusedUrl } = require('./refused.js');

const { room } = addon;
// Why there is no map.
const [MISSING, FAILED] = [0, 1];
// What failed is asked for again after so many milliseconds at most, and of so many URLs it is known how often.
const [MOST_WAIT, MOST_FAILED] = [600000, 1000];

// After how many milliseconds what failed, and so often in a row before, is asked for again; or null for never.
const restAfter = (retry, times) => (retry === null ? null : Math.min(retry * 2 ** times, Math.max(retry, MOST_WAIT)));

// A URL without its query and its fragment, for whose map a loader is asked.
const cut = (url) => url.split(/[?#]/, 1)[0];

// What the owner, a table or maps, knows of URLs. `isNamed` is whether only what a frame can name is taken, and `came` is told of each map.
class Store {
  #owner;
  #options;
  // The URLs that are asked for, with what waits for each, and those that are asked for by a call that has not returned.
  #awaited = new Map();
  #loading = new Set();
  #failures = new Map();
  // How often a map was put that was not read into the store at once.
  #puts = 0;

  constructor(owner, options, most) {
    const { load, loadAsync, paths = false, maxNames, atOnce = 8, retryAfter, noneFor, isNamed = false, came = () => {} } = options;
    this.#owner = owner;
    [this.load, this.loadAsync] = [given.callable(load, 'load'), given.callable(loadAsync, 'loadAsync')];
    this.atOnce = Math.max(given.count(atOnce, 'atOnce', 1000), 1);
    const [retry, none] = [given.time(retryAfter, 'retryAfter', 30000), given.time(noneFor, 'noneFor', null)];
    this.#options = { paths: given.boolean(paths, 'paths'), reading: given.reading({ maxNames }), retry, none, isNamed, came };
    // What is to be done before what is known is asked for, and before it changes.
    [this.renews, this.settles] = [undefined, undefined];
    this.handle = addon.newTable(most);
  }

  get open() {
    if (!this.handle) throw new Error('the table is closed');
    return this.handle;
  }

  // The handle, where what is known is to change.
  get changing() {
    if (this.settles) this.settles();
    return this.open;
  }

  // What a call of the addon answers for a URL: `mapAt` its map, held by itself; `keyOfMap` the key of that, which is a use; `forget` the key
  // of what is forgotten. Each is null where there is none.
  asked(call, url) {
    room[ROOM_HANDLE] = this.open.place;
    return call(url);
  }

  // The key under which the map of a URL is wanted, or null.
  wanted(url) {
    return this.asked(addon.wanted, url);
  }

  // Whether it is known what map this URL has, or that it has none; and whether it has one.
  has(url) {
    this.wanted(url);
    return room[3] < 2;
  }

  holds(url) {
    this.wanted(url);
    return room[3] === 0;
  }

  // Of a call with a URL, its answer; after the loader was asked, where it has none.
  found(call, url, none) {
    if (this.renews) this.renews();
    for (let asks = true; ; asks = false) {
      const answer = call(url);
      if (answer !== none || !asks) return answer;
      const key = this.wanted(url);
      if (key === null || !this.ask(key)) return none;
    }
  }

  // Asks `load` for the map under a key; whether it was asked. Where only `loadAsync` could be, that is an error: it is not known whether there
  // is a map. A map that `stays` is there, and stays where that fails.
  ask(key, tell, stays) {
    const [{ load }, url, puts] = [this, cut(key), this.#puts];
    if (!load && this.loadAsync) throw new Error('`load` is wanted: it is rewriteAsync, maps.load and streams that ask `loadAsync`');
    if (!load || this.#loading.has(url)) return false;
    this.#loading.add(url);
    try {
      this.#settle(key, () => this.#read(key, load(url), !stays && this.#puts !== puts), tell, stays);
    } finally {
      this.#loading.delete(url);
    }
    return true;
  }

  // Calls `go` once it is known what map there is under a key, with what the one threw that is told. The loader is asked once for all that
  // wait; and again, where what is known was discarded meanwhile.
  wait(key, go, tell) {
    const waiting = this.#awaited.get(cut(key));
    if (waiting) waiting.all.push(waiting.key === key ? go : () => this.wait(key, go, tell));
    else this.#fetch(key, { key, all: [go], isStale: true }, tell);
  }

  async #fetch(key, waiting, tell) {
    const [url, load] = [cut(key), this.loadAsync || this.load];
    let [came, trouble] = [];
    this.#awaited.set(url, waiting);
    while (waiting.isStale) {
      waiting.isStale = false;
      try {
        const made = await this.#made(madeLater, key, await load(url));
        came = () => made;
      } catch (error) {
        came = () => {
          throw error;
        };
      }
    }
    this.#awaited.delete(url);
    try {
      if (!this.holds(key)) this.#settle(key, came, tell);
    } catch (error) {
      trouble = { error };
    }
    // Before another map is put that takes the room of this one.
    for (const go of waiting.all) go(trouble);
  }

  under(url) {
    return new Under(url, this.#options.paths, this.#options.reading);
  }

  // What was given under a key, which is read into the store at once if it can be; and nothing where there is a map, which was added meanwhile.
  #read(key, data, mayBeThere) {
    const { isNamed, came } = this.#options;
    if (mayBeThere && this.holds(key)) return {};
    const made = isNamed ? null : readInto(this.changing, this.under(key), data);
    if (made === null) return this.#made(madeUnder, key, data);
    came(key, made, made.size);
    return made;
  }

  #made(make, key, data) {
    return data === null || data === undefined ? null : make(this.under(key), data);
  }

  // Puts what comes of a call: a map, or that there is none, or that it failed, which is told; then a map may stay.
  #settle(key, make, tell = (url, error) => this.#owner.tell(url, error), stays = false) {
    try {
      const made = make();
      if (made && made.handle) this.put(key, made);
      else if (!made) addon.putNone(this.changing, key, MISSING, this.#options.none);
      this.#failures.delete(key);
    } catch (error) {
      try {
        if (!stays || !this.holds(key)) this.putFailed(key, restAfter(this.#options.retry, this.#fail(key)));
      } finally {
        // Last, as it may add the map.
        tell(cut(key), error);
      }
    }
  }

  // How often in a row a key failed before this time.
  #fail(key) {
    const times = this.#failures.get(key) || 0;
    this.#failures.delete(key);
    this.#failures.set(key, times + 1);
    if (this.#failures.size > MOST_FAILED) this.#failures.delete(this.#failures.keys().next().value);
    return times;
  }

  // Puts that the map under a key failed, for so many milliseconds, or for ever where that is null.
  putFailed(key, time) {
    addon.putNone(this.changing, key, FAILED, time);
  }

  // Puts a map under this very URL. Its handle is freed, if no TraceMap has it.
  put(url, made) {
    const { isNamed, came } = this.#options;
    const why = isNamed ? addon.isBadUrl(url, made.handle) : undefined;
    if (why !== undefined) throw refusedUrl(why, url);
    const { size } = made;
    addon.put(this.changing, url, made.handle, size);
    this.#puts += 1;
    this.#failures.delete(url);
    came(url, made, size);
    if (!made.map) addon.closeMap(made.handle);
  }

  discard(url) {
    room[ROOM_HANDLE] = this.changing.place;
    const key = addon.forget(url);
    this.#failures.delete(key);
    const waiting = key !== null && this.#awaited.get(cut(key));
    if (waiting) waiting.isStale = true;
  }

  // Asks for the maps of these URLs that are wanted, so many at once.
  async fill(urls) {
    const left = [...new Set(urls.map((url) => this.wanted(url)))].filter((key) => key !== null).reverse();
    const wait = (key) => new Promise((resolve, reject) => this.wait(key, (trouble) => (trouble ? reject(trouble.error) : resolve())));
    const next = async () => {
      while (left.length) await wait(left.pop());
    };
    await Promise.all(Array.from({ length: Math.min(this.atOnce, left.length) }, next));
  }
}

module.exports = { Store, restAfter };
