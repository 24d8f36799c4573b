'use strict';
// What examples/service/service.js takes of the library, over @jridgewell/trace-mapping: a map that was read is kept, since it does not say how
// large it is.
const fs = require('node:fs');
const path = require('node:path');
const { TraceMap, originalPositionFor, sourceContentFor } = require('@jridgewell/trace-mapping');

class Maps {
  constructor(prefix, folder) {
    [this.prefix, this.folder, this.kept, this.nbytes] = [prefix, folder, new Map(), 0];
  }

  static folder(prefix, folder) {
    return new Maps(prefix, folder);
  }

  get size() {
    return this.kept.size;
  }

  get(url) {
    const key = url.split(/[?#]/, 1)[0];
    if (!this.kept.has(key)) {
      const name = path.join(this.folder, `${key.slice(this.prefix.length)}.map`);
      this.kept.set(key, fs.existsSync(name) ? new TraceMap(fs.readFileSync(name, 'utf8'), key) : null);
    }
    return this.kept.get(key);
  }

  lookUp(url, line, column) {
    const map = this.get(url);
    const place = map && originalPositionFor(map, { line, column });
    return place && place.source ? { ...place, ignored: false, index: place.source } : null;
  }

  context(url, source, line, before = 2, after = 2) {
    const content = sourceContentFor(this.get(url), source);
    if (content === null || content === undefined) return null;
    const lines = content.split(/\r\n|[\n\r\u2028\u2029]/);
    return { before: lines.slice(Math.max(0, line - 1 - before), line - 1), line: lines[line - 1], after: lines.slice(line, line + after) };
  }
}

module.exports = { Maps };
