'use strict';
// Texts that are rewritten over a store, in one loop: it runs, and where a map is wanted, that is loaded and put, and it goes on.
const addon = require('./addon.js');
const { refusedText } = require('./refused.js');

// A text with more bytes is not rewritten.
const MOST_TEXT = 1073741824;

// The URLs and paths of the frames of a text for whose maps a loader would be asked, without query and fragment, or those of its places: each
// once, in their order.
function locationsIn(bytes, { places, strip }) {
  const text = strip ? addon.stripped(bytes) : bytes;
  if (text === null) throw refusedText();
  return [...new Set(addon.locations(text, places).split('\n').slice(0, -1))];
}

// Begins with a text of at most so many bytes.
function begun({ load, loadAsync }, { places, hide, strip }, most = MOST_TEXT) {
  return addon.newRewriting(places, hide, strip, Boolean(load || loadAsync), most);
}

// Goes over a part of a text, behind which nothing comes or more, and of which so many bytes may come out. It gives each key for whose map is
// to be asked, and at last the text, and how many lines, frames or places there were so far, and how many were mapped and hidden.
function* stops(store, rewriting, { bytes, most, isLast }) {
  const numbers = new Float64Array(4);
  if (store.renews) store.renews();
  if (!addon.give(rewriting, bytes, most, isLast)) throw refusedText();
  for (let key; (key = addon.run(rewriting, store.changing, numbers)) !== null; ) {
    if (key !== false) yield key;
    else if (numbers[0] === addon.codes.USAGE) throw new Error('`*` with `anywhere`');
    else throw refusedText(numbers[0], numbers[1]);
  }
  return { text: addon.takeText(rewriting), numbers };
}

// What comes of a part over maps that are loaded at once.
function rewritten(store, rewriting, part, tell) {
  const run = stops(store, rewriting, part);
  let stop = run.next();
  for (; !stop.done; stop = run.next()) {
    if (store.ask(stop.value, tell)) continue;
    // It is the loader itself that rewrites.
    store.putFailed(stop.value, 1);
  }
  return stop.value;
}

// The same over maps that are waited for, so many at once: those that are named in `ahead`, whole lines of the part.
function rewrittenLater(store, rewriting, part, tell, { ahead, ...how }) {
  const [run, at] = [stops(store, rewriting, part), new Map()];
  let names;
  return new Promise((resolve, reject) => {
    const go = (trouble) => {
      try {
        if (trouble) throw trouble.error;
        const { done, value: key } = run.next();
        if (done) return resolve(key);
        store.wait(key, go, tell);
        if (!names) (names = locationsIn(ahead, how)).forEach((name, i) => at.set(name, i + 1));
        const from = at.get(key) || 0;
        const next = names.slice(from, from + store.atOnce - 1).filter((name) => store.wanted(name) === name);
        next.forEach((name) => store.wait(name, (failed) => failed && reject(failed.error), tell));
      } catch (error) {
        reject(error);
      }
    };
    go();
  });
}

module.exports = { begun, locationsIn, rewritten, rewrittenLater };
