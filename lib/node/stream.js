'use strict';
// Traces and logs, rewritten as they come.
const { Transform } = require('stream');
const { steady } = require('./given.js');
const { counted, rewriting, storeOf } = require('./table.js');
const { begun, rewritten, rewrittenLater } = require('./texts.js');

const LF = 10;

// Rewrites what is written to it as `rewrite` does the whole. At most an unfinished line is held back, and of one that can be no frame
// nothing. What is written is copied, as its writer may use its place again; of a text come the bytes that node makes of it, which are those of
// U+FFFD for half of a pair of units. `counts` are those of all that was written. The table stays the caller's. A map that is not read for an
// error is an event `refused` with the URL and the error, or else told as the table tells it. Over maps with `loadAsync` what is written is
// waited for.
class RewriteStream extends Transform {
  #table;
  #how;
  #rewriting;
  #numbers = new Float64Array(4);
  // Whether an unfinished line was written.
  #isOpen = false;

  constructor(table, options) {
    super();
    [this.#table, this.#how] = [storeOf(table) && table, rewriting(options)];
    this.#rewriting = begun(storeOf(table), this.#how, Number.MAX_SAFE_INTEGER);
  }

  get counts() {
    return counted(this.#numbers, this.#how);
  }

  _transform(chunk, encoding, done) {
    this.#put(steady(chunk), false, done);
  }

  _flush(done) {
    this.#put(Buffer.alloc(0), true, done);
  }

  // Rewrites the next bytes, or what stands before the end.
  async #put(bytes, isLast, done) {
    try {
      const [store, tell] = [storeOf(this.#table), (url, error) => this.#tell(url, error)];
      const part = { bytes, isLast, most: this.#how.most };
      const made = store.loadAsync
        ? await rewrittenLater(store, this.#rewriting, part, tell, { ...this.#how, ahead: this.#whole(bytes) })
        : rewritten(store, this.#rewriting, part, tell);
      this.#numbers = made.numbers;
      if (made.text.length) this.push(made.text);
    } catch (error) {
      return done(error);
    }
    done();
  }

  // The whole lines among these bytes.
  #whole(bytes) {
    const end = bytes.lastIndexOf(LF) + 1;
    const lines = bytes.subarray(this.#isOpen ? bytes.indexOf(LF) + 1 : 0, end);
    this.#isOpen = bytes.length ? end < bytes.length : this.#isOpen;
    return lines;
  }

  // Tells those who listen of a map that is not read, or else the table.
  #tell(url, error) {
    if (!this.emit('refused', url, error)) this.#table.tell(url, error);
  }
}

module.exports = { RewriteStream };
