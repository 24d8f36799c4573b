'use strict';
// What RewriteStream makes of texts that come in pieces, beside `rewrite` over the whole: node stream.js.
const assert = require('node:assert');
const { spawn } = require('node:child_process');
const { Readable, Writable, pipeline } = require('node:stream');
const { promisify } = require('node:util');
const smap = require('smap');
const { chance, below } = require('../vectors/chance.js').chanceFrom(7);

const small = '{"version":3,"sources":["a.js","n/b.js"],"names":[],"ignoreList":[1],"mappings":"AAAA,UACI,UCAA"}';
const url = 'https://e.test/m.js';
const run = promisify(pipeline);

let reported = 0;
const same = (got, wanted, what) => {
  assert.deepStrictEqual(got, wanted, what);
  reported += 1;
};

const frame = (column) => `    at f (${url}:1:${column})`;
// Lines that are frames, hidden frames, none, and too long or just not too long for frames.
const filled = (length) => `    at ${'x'.repeat(length - frame(11).length + 1)} (${url}:1:11)`;
const LINES = ['TypeError: ä 😀', `\x1b[36m${frame(11)}\x1b[0m`, frame(1), frame(11), frame(21), `f@${url}?v=3:1:11`, `${frame(12)}\r`, `f@${url}:1:25`, '', ' ', `{"stack":"Error\\n${frame(11)}\\n"}`,
  `[${url}:1:11]`, 'plain', filled(65536), filled(65537), `${url}:1:11 ${'y'.repeat(70000)} ${url}:1:21`];

function* cut(bytes, most) {
  for (let at = 0; at < bytes.length; ) {
    const next = Math.min(bytes.length, at + 1 + below(most));
    yield bytes.subarray(at, next);
    at = next;
  }
}

const sink = (parts, wait) =>
  new Writable({
    highWaterMark: 1,
    write(chunk, encoding, done) {
      parts.push(chunk);
      if (wait) setImmediate(done);
      else done();
    },
  });

const table = (options) => new smap.Table({ [url]: small }, options);
const loading = () => new smap.Table({}, { load: (asked) => (asked === url ? small : null) });

async function pieces() {
  same(filled(65536).length, 65536);
  for (let round = 0; round < 400; round++) {
    const lines = Array.from({ length: below(12) }, () => LINES[below(round % 4 ? 13 : LINES.length)]);
    const bytes = Buffer.from(lines.join('\n') + (chance() < 0.5 ? '\n' : ''));
    for (const options of [undefined, { stripAnsi: true }, { hideIgnored: true }, { anywhere: true }, { anywhere: true, stripAnsi: true }]) {
      for (const make of [table, loading]) {
        const over = make();
        const wanted = smap.rewrite(over, bytes, options);
        const [stream, parts] = [new smap.RewriteStream(over, options), []];
        await run(Readable.from(cut(bytes, [1, 7, 100, 100000][below(4)] + (bytes.length > 5000 ? 5000 : 0)), { objectMode: false }), stream, sink(parts, round % 7 === 0));
        same(Buffer.concat(parts), wanted);
        same(stream.counts, over.counts);
      }
    }
  }
}

// Over maps that are waited for the same comes out, and the same is asked for, wherever a URL is cut.
async function waited() {
  for (let round = 0; round < 100; round++) {
    const names = Array.from({ length: 1 + below(8) }, () => `https://e.test/${below(5)}/m.js`);
    const bytes = Buffer.from(names.map((name, i) => (i % 2 ? `[${name}:1:11] ${name}:1:1` : `f@${name}?v=1:1:11`)).join('\n'));
    for (const options of [{}, { stripAnsi: true }, { anywhere: true }]) {
      const [whole, parted] = [new Set(), new Set()];
      const over = (asked) => new smap.Maps({ loadAsync: async (name) => (asked.add(name), name.includes('/3/') ? null : small), maxBytes: 1e6, atOnce: 3 });
      const wanted = await smap.rewriteAsync(over(whole), bytes, options);
      const parts = [];
      await run(Readable.from(cut(bytes, [1, 7, 100][below(3)]), { objectMode: false }), new smap.RewriteStream(over(parted), options), sink(parts));
      same([Buffer.concat(parts), [...parted].sort()], [wanted, [...whole].sort()]);
    }
  }
}

// What was written comes out when its line ends, and no later; of a line that is no frame, what is too much.
async function early() {
  const stream = new smap.RewriteStream(table());
  const read = () => String(stream.read() || '');
  const write = (text) => {
    stream.write(text);
    return new Promise(setImmediate);
  };
  await write(`${frame(11)}\n${frame(1)}`);
  same(read(), '    at f (https://e.test/a.js:2:5)\n');
  await write('\n');
  same(read(), '    at f (https://e.test/a.js:1:1)\n');
  await write('x'.repeat(65536));
  same(read(), '');
  await write('y');
  same(read(), `${'x'.repeat(65536)}y`);
  await write(`zz (${url}:1:11)\n${frame(11)}`);
  same(read(), `zz (${url}:1:11)\n`);
  same(stream.counts, { lines: 3, frames: 2, mapped: 2, hidden: 0 });
  stream.end();
  await new Promise((done) => stream.on('readable', done));
  same(read(), '    at f (https://e.test/a.js:2:5)');
  same(stream.counts, { lines: 4, frames: 3, mapped: 3, hidden: 0 });
  // Strings in another encoding, a buffer that is used again, and a part of a character.
  const [other, parts] = [new smap.RewriteStream(table()), []];
  other.on('data', (part) => parts.push(part));
  other.write(Buffer.from(frame(11)).toString('latin1'), 'latin1');
  const again = Buffer.from('\nrest');
  other.write(again);
  await new Promise(setImmediate);
  again.fill(0);
  for (const byte of Buffer.from('ä😀')) other.write(Buffer.of(byte));
  await new Promise((done) => other.end(done));
  await new Promise(setImmediate);
  same(String(Buffer.concat(parts)), '    at f (https://e.test/a.js:2:5)\nrestä😀');
}

// A line that is too long for a frame, in a buffer that is used again once it is written.
async function passed() {
  const [stream, parts, again] = [new smap.RewriteStream(table()), [], Buffer.alloc(65537)];
  stream.on('data', (part) => parts.push(part));
  for (const letter of 'xyz') await new Promise((done) => stream.write(again.fill(letter), done));
  const got = String(Buffer.concat(parts));
  same(got.replace(/(.)\1+/g, '$1'), 'xyz');
  same(got.length, 3 * again.length);
}

// A slow reader holds the writer back.
async function backpressure() {
  const stream = new smap.RewriteStream(table());
  const text = `${frame(11)}\n`.repeat(500);
  let [written, most] = [0, 0];
  const source = new Readable({
    read() {
      written += 1;
      this.push(written <= 400 ? text : null);
    },
  });
  let length = 0;
  await run(source, stream, new Writable({
    write(chunk, encoding, done) {
      most = Math.max(most, stream.readableLength + stream.writableLength + source.readableLength);
      length += chunk.length;
      setImmediate(done);
    },
  }));
  same(length, 400 * 500 * '    at f (https://e.test/a.js:2:5)\n'.length);
  assert.ok(most < 10 * text.length, `${most} bytes are held of ${400 * text.length}`);
}

// A map that is refused and a loader that throws are told, and the stream goes on.
async function refusals() {
  const text = `${frame(1)}\nf@b.js:1:1\n${frame(11)}\nf@c.js:1:11\n`;
  const wanted = `${frame(1)}\nf@b.js:1:1\n${frame(11)}\nf@a.js:2:5\n`;
  const load = (asked) => {
    if (asked === 'b.js') throw new RangeError(asked);
    return asked === url ? '{}' : small;
  };
  for (const listens of [true, false]) {
    const over = new smap.Table({}, { load });
    const [stream, parts, told] = [new smap.RewriteStream(over), [], []];
    if (listens) stream.on('refused', (asked, error) => told.push({ url: asked, error }));
    await run(Readable.from(cut(Buffer.from(text), 7), { objectMode: false }), stream, sink(parts));
    same(String(Buffer.concat(parts)), wanted);
    same(over.refusals.length, listens ? 0 : 2);
    same([...told, ...over.refusals].map(({ url: asked, error }) => [asked, error.name]), [[url, 'Refused'], ['b.js', 'RangeError']]);
  }
}

async function errors() {
  const closing = table();
  closing.close();
  assert.throws(() => new smap.RewriteStream(closing), { message: 'the table is closed' });
  const closed = table();
  const stream = new smap.RewriteStream(closed);
  closed.close();
  await assert.rejects(run(Readable.from(['a\n']), stream, sink([])), { message: 'the table is closed' });
  for (const bad of [7, null, {}, small]) assert.throws(() => new smap.RewriteStream(bad), { name: 'TypeError', message: 'a Table is wanted' });
  for (const bad of [{ anyWhere: true }, { highWaterMark: 1 }]) assert.throws(() => new smap.RewriteStream(table(), bad), { name: 'TypeError', message: /is no option here/ });
  assert.throws(() => new smap.RewriteStream(table(), { anywhere: true, hideIgnored: true }), /`hideIgnored` with `anywhere`/);
}

// What a child process prints, and the lines of a log.
async function children() {
  const script = `console.log(${JSON.stringify(frame(11))}); process.stdout.write(${JSON.stringify(frame(21))})`;
  const parts = [];
  await run(spawn(process.execPath, ['-e', script]).stdout, new smap.RewriteStream(table()), sink(parts));
  same(String(Buffer.concat(parts)), '    at f (https://e.test/a.js:2:5)\n    at f (https://e.test/n/b.js:2:5)');
  const log = { level: 50, err: { type: 'Error', message: 'x', stack: `Error: x\n${frame(11)}\n${frame(21)}` }, pid: 7 };
  const lines = [];
  await run(Readable.from([`${JSON.stringify(log)}\n`]), new smap.RewriteStream(table(), { anywhere: true }), sink(lines));
  const { stack } = JSON.parse(Buffer.concat(lines)).err;
  same(stack, 'Error: x\n    at f (https://e.test/a.js:2:5)\n    at f (https://e.test/n/b.js:2:5)');
}

(async () => {
  for (const test of [pieces, waited, early, passed, backpressure, refusals, errors, children]) await test();
  console.log('stream', reported);
})();
