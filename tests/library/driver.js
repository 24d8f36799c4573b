'use strict';
// What tests/try-library asks of the library in node. driver.c says of each command what it prints. And
//   chain FOLDER OUTER LESS    the map composed with those NAME.map of the folder, by a loader; on standard error what that is asked
//   mappings MAP               each mapping as the program prints it
//   unclosed MAP COUNT         the peak of memory, in KiB, where the map is read so often and never closed
//   closed MAP COUNT           the peak of memory, in KiB, while the map is read so often and never closed, after it was open so often
//   freed MAP COUNT            by how much memory grew, in KiB, after the map was read so often, and all were closed but one between them
//   unlike MAP OTHER CODE      how many mappings the first map has in the code, and how many of them the other answers otherwise
const fs = require('node:fs');
const smap = require('smap');

const open = (path, ...words) => new smap.TraceMap(fs.readFileSync(path), ...words);
// Those of standard input, whose lines count from 0, and in node from 1.
const positions = () =>
  fs.readFileSync(0, 'utf8').split('\n').filter(Boolean).map((line) => line.split(' ').map(Number)).map(([line, column]) => [line + 1, column]);
const put = (lines) => process.stdout.write(lines.map((line) => `${line}\n`).join(''));

function report(map, kind, source, line, column, name) {
  if (kind === 0) return 'none';
  if (kind === 1) return 'unmapped';
  const entry = map.sourceEntries[source];
  return `${entry.name === null ? '(no name)' : entry.name}:${line}:${column + 1}` +
    `${name === null ? '' : ` name ${name}`}${entry.ignored ? ' ignored' : ''}`;
}

// originalPositionFor says nothing of why there is none: the kind is asked of the many.
function look(path, bias) {
  const map = open(path);
  const places = positions();
  const kinds = smap.lookUpMany(map, Uint32Array.from(places.flat()));
  put(places.map(([line, column], i) => {
    const answer = smap.originalPositionFor(map, { line, column, bias });
    if (answer.line === null) return kinds[7 * i] === 1 && bias !== -1 ? 'unmapped' : 'none';
    const source = map.sourceEntries.findIndex((entry) => entry.name === answer.source);
    return report(map, 2, source, answer.line, answer.column, answer.name);
  }));
}

function many(path) {
  const map = open(path);
  const found = smap.lookUpMany(map, Uint32Array.from(positions().flat()));
  const lines = [];
  for (let i = 0; i < found.length; i += 7) {
    const [kind, , source, line, column, named, name] = found.subarray(i, i + 7);
    lines.push(report(map, kind, source, line, column, named ? map.names[name] : null));
  }
  put(lines);
}

function again(path, count) {
  const data = fs.readFileSync(path);
  let before = 0;
  for (let i = 0; i < Number(count); i++) {
    new smap.TraceMap(data).close();
    if (i === 100) before = process.memoryUsage().rss;
  }
  console.log(Math.round((process.memoryUsage().rss - before) / 1024));
}

function unclosed(path, count) {
  const data = fs.readFileSync(path);
  for (let i = 0; i < Number(count); i++) new smap.TraceMap(data);
  console.log(process.resourceUsage().maxRSS);
}

function closed(path, count) {
  const data = fs.readFileSync(path);
  const maps = Array.from({ length: Number(count) }, () => new smap.TraceMap(data));
  maps.forEach((map) => map.close());
  let most = 0;
  for (let i = 0; i < Number(count); i++) {
    new smap.TraceMap(data);
    most = Math.max(most, process.memoryUsage().rss);
  }
  console.log(Math.round(most / 1024));
}

function freed(path, count) {
  const data = fs.readFileSync(path);
  const before = process.memoryUsage().rss;
  const maps = Array.from({ length: Number(count) }, () => new smap.TraceMap(data));
  maps.filter((_, i) => i !== Number(count) / 2).forEach((map) => map.close());
  console.log(Math.round((process.memoryUsage().rss - before) / 1024));
}

// Each mapping as the program prints it.
function mappings(path) {
  const map = open(path);
  const ignored = new Map(map.sourceEntries.map((entry) => [entry.name, entry.ignored]));
  put([...map.mappings()].map(({ generatedLine, generatedColumn, source, originalLine, originalColumn, name }) =>
    `${generatedLine}:${generatedColumn + 1} ${originalLine === null ? 'unmapped' : `${source}:${originalLine}:${originalColumn + 1}`}` +
    `${name === null ? '' : ` name ${name}`}${ignored.get(source) ? ' ignored' : ''}`));
}

const options = (less) => ({ prune: ['prune', 'both'].includes(less), noContent: ['bare', 'both'].includes(less) });

// How many mappings of a map the other one does not answer alike: at each column of the code at which one of them begins.
function unlike(path, otherPath, code) {
  const [map, other] = [open(path), open(otherPath)];
  let [count, unlike] = [0, 0];
  fs.readFileSync(code, 'utf8').split('\n').forEach((text, line) => {
    for (let column = 0; column <= text.length; column++) {
      const [kind, begins] = smap.lookUpMany(map, Uint32Array.of(line + 1, column));
      if (kind !== 2 || begins !== column) continue;
      const [wanted, got] = [map, other].map((from) => smap.originalPositionFor(from, { line: line + 1, column }));
      count += 1;
      if (JSON.stringify(wanted) !== JSON.stringify(got)) unlike += 1;
    }
  });
  put([`mappings ${count} unlike ${unlike}`]);
}

const commands = {
  look: (path) => look(path),
  from: (path) => look(path, smap.LEAST_UPPER_BOUND),
  many,
  mappings,
  refuse: (...paths) =>
    put(paths.map((path) => {
      try {
        open(path);
      } catch (refused) {
        return refused.message.replace(/^refused:/, `refused: ${path}:`);
      }
      return 'not refused';
    })),
  why: (path) => {
    try {
      open(path);
    } catch ({ value = '-', limit = '-', column = '-', explanation = '' }) {
      process.stdout.write(`${value} ${limit} ${column}\n${explanation}`);
    }
  },
  // With as many checkpoints as the program makes.
  counts: (path) => put([`ok ${Object.entries(open(path, null, 64).counts).map((pair) => pair.join(' ')).join(' ')}`]),
  show: (path) => process.stdout.write(open(path).write()),
  compose: (outer, source, inner) => {
    const first = open(outer);
    process.stdout.write(smap.compose(first, Number(source), inner === outer ? first : open(inner)));
  },
  all: (outer, less, ...words) => {
    const inners = words.flatMap((word, i) => (i % 2 ? [[Number(words[i - 1]), fs.readFileSync(word)]] : []));
    process.stdout.write(smap.composeAll(open(outer), inners, options(less)));
  },
  unlike,
  chain: (folder, outer, less) => {
    const asked = [];
    const load = (name) => {
      asked.push(name);
      const path = `${folder}/${name}.map`;
      return fs.existsSync(path) ? fs.readFileSync(path) : null;
    };
    process.stdout.write(smap.composeAll(open(outer), {}, { load, ...options(less) }));
    console.error(asked.join(' '));
  },
  rewrite: (url, path) =>
    process.stdout.write(smap.rewrite(new smap.Table({ [url]: fs.readFileSync(path) }), fs.readFileSync(0))),
  load: (url, path) => {
    const load = (named) => (named === url ? fs.readFileSync(path) : null);
    process.stdout.write(smap.rewrite(new smap.Table({}, { load }), fs.readFileSync(0)));
  },
  anywhere: (url, path) => {
    const table = new smap.Table({ [url]: fs.readFileSync(path) });
    process.stdout.write(smap.rewrite(table, fs.readFileSync(0), { anywhere: true }));
  },
  again,
  unclosed,
  closed,
  freed,
};
commands[process.argv[2]](...process.argv.slice(3));
