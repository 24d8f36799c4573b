#!/usr/bin/env node
// Makes the rows of `raw` and of mappings texts. README.md beside this file says what they are.
//
//   node make.js               writes its rows of smap_rows and prints the counts
//   node make.js check FILE    says whether the mappings text in FILE is accepted
//
// Nothing here is made from smap's own code or output.
'use strict';

const fs = require('fs');
const path = require('path');

// The checker is the only source of the refusals, and it also guards the texts of the answers.
const { DIGITS, digitOf, numbersOf, unsignedOf, checked, refusalOf } = require('./checker.js');

if (process.argv[2] === 'check') {
  const text = fs.readFileSync(process.argv[3], 'utf8').replace(/\n$/, '');
  const refusal = refusalOf(text);
  console.log(refusal === null ? 'accepted' : refusal);
  process.exit(refusal === null ? 0 : 1);
}

const { chance, below, pick } = require('./chance.js').chanceFrom(20426);
const { firstFrom, lastBefore } = require('./lookup.js');
const { atEach, putRows, row, run } = require('./rows.js');

// ---------------------------------------------------------------------------------------------
// Answers: the decoding is that of @jridgewell/sourcemap-codec, and where a text has empty pieces,
// which that one misreads, that of source-map. The rule of the look-up stands in `answerOf`.
// ---------------------------------------------------------------------------------------------

const codec = require('@jridgewell/sourcemap-codec');
const { TraceMap, traceSegment } = require('@jridgewell/trace-mapping');
const { SourceMapConsumer } = require('source-map');

function hasEmptyPiece(text) {
  return text.split(';').some((line) => line !== '' && line.split(',').includes(''));
}

// source-map wants as many sources and names as the text speaks of.
const MANY = 2000;

function consumerOf(text) {
  const sources = Array.from({ length: MANY }, (_, i) => `s${i}`);
  const names = Array.from({ length: MANY }, (_, i) => `n${i}`);
  return new SourceMapConsumer({ version: 3, sources, names, mappings: text });
}

function indexOf(word) {
  return Number(word.slice(1));
}

// The mappings line by line, as source-map gives them. It sorts those at one place, so this serves
// only texts in which no two stand at one place.
function linesBySourceMap(text) {
  const lines = [];
  consumerOf(text).eachMapping((mapping) => {
    while (lines.length < mapping.generatedLine) lines.push([]);
    const segment = [mapping.generatedColumn];
    if (mapping.originalLine !== null) {
      segment.push(indexOf(mapping.source), mapping.originalLine - 1, mapping.originalColumn);
      if (mapping.name !== null) segment.push(indexOf(mapping.name));
    }
    lines[mapping.generatedLine - 1].push(segment);
  });
  return lines;
}

function linesOf(text) {
  return hasEmptyPiece(text) ? linesBySourceMap(text) : codec.decode(text);
}

// The last mapping on the line whose column is not after the asked one.
function answerOf(lines, line, column) {
  let answer = null;
  for (const segment of lines[line - 1] || []) {
    if (segment[0] <= column - 1) answer = segment;
  }
  return answer;
}

function shown(segment) {
  if (segment === null) return 'none';
  if (segment.length === 1) return 'unmapped';
  const place = `source ${segment[1]} line ${segment[2] + 1} column ${segment[3] + 1}`;
  return segment.length === 5 ? `${place} name ${segment[4]}` : place;
}

function trimmed(lines) {
  const list = lines.map((line) => line.map((segment) => Array.from(segment)));
  while (list.length > 0 && list[list.length - 1].length === 0) list.pop();
  return JSON.stringify(list);
}

const counts = { traced: 0, consumed: 0, equalColumns: 0, large: 0, many: 0 };

function insist(holds, what) {
  if (!holds) throw new Error(what);
}

// A second and a third opinion on one row, wherever their rules are ours.
function compare(text, lines, line, column, answer) {
  const onLine = lines[line - 1] || [];
  const equal = answer !== null && onLine.filter((s) => s[0] === answer[0]).length > 1;
  if (equal) {
    counts.equalColumns += 1;
    return;
  }
  if (!hasEmptyPiece(text)) {
    const map = new TraceMap({ version: 3, sources: [], names: [], mappings: text });
    const traced = traceSegment(map, line - 1, column - 1);
    insist(shown(traced) === shown(answer), `trace-mapping differs: ${text} ${line} ${column}`);
    counts.traced += 1;
  }
  const digits = text.split(/[;,]/).map((piece) => Array.from(Buffer.from(piece), digitOf));
  if (digits.some((piece) => numbersOf(piece).some((n) => unsignedOf(n) >= 2147483648n))) {
    counts.large += 1;
    return;
  }
  if (lines.some((l) => l.some((s) => s.length > 1 && (s[1] >= MANY || s[4] >= MANY)))) {
    counts.many += 1;
    return;
  }
  const place = consumerOf(text).originalPositionFor({ line, column: column - 1 });
  let said = null;
  if (place.line !== null) {
    said = [0, indexOf(place.source), place.line - 1, place.column];
    if (place.name !== null) said.push(indexOf(place.name));
  }
  // source-map has one answer for 'none' and 'unmapped'.
  const asked = answer !== null && answer.length === 1 ? null : answer;
  insist(shown(said) === shown(asked), `source-map differs: ${text} ${line} ${column}`);
  counts.consumed += 1;
}

const rows = [];
const seen = new Set();

function write(line, column, expected, text) {
  insist(!/[|\n\r]/.test(text), 'a text that no row can hold');
  const key = `${line}|${column}|${text}|${expected}`;
  if (seen.has(key)) return false;
  seen.add(key);
  rows.push({ line, column, text, expected });
  return true;
}

function ask(text, line, column) {
  insist(Buffer.byteLength(text) <= 400, `a long text: ${text}`);
  const mine = checked(text);
  insist(mine.kind === 0, `not accepted: ${text}`);
  const lines = linesOf(text);
  insist(trimmed(lines) === trimmed(mine.lines), `the checker reads otherwise: ${text}`);
  if (hasEmptyPiece(text)) {
    const full = (row) => row.split(',').filter((piece) => piece !== '').join(',');
    const same = codec.decode(text.split(';').map(full).join(';'));
    insist(trimmed(lines) === trimmed(same), `the two decoders differ: ${text}`);
  }
  const answer = answerOf(lines, line, column);
  if (write(line, column, shown(answer), text)) compare(text, lines, line, column, answer);
}

function refuse(text, line = 1, column = 1) {
  const refusal = refusalOf(text);
  insist(refusal !== null, `accepted: ${text}`);
  write(line, column, refusal, text);
}

// ---------------------------------------------------------------------------------------------
// Spelling.
// ---------------------------------------------------------------------------------------------

function spelling(value) {
  let unsigned = value < 0 ? 2n * BigInt(-value) + 1n : 2n * BigInt(value);
  let text = '';
  do {
    const digit = Number(unsigned % 32n);
    unsigned /= 32n;
    text += DIGITS[unsigned > 0n ? digit + 32 : digit];
  } while (unsigned > 0n);
  return text;
}

// The same number in `length` digits, of which the last ones add nothing.
function longer(text, length) {
  let out = text;
  while (out.length < length) {
    const last = DIGITS.indexOf(out[out.length - 1]);
    out = out.slice(0, -1) + DIGITS[last + 32] + 'A';
  }
  return out;
}

// A text of the absolute mappings, some of whose numbers are spelled longer than needed.
function spelled(lines, share) {
  const running = [0, 0, 0, 0, 0];
  const one = (segment) =>
    segment
      .map((value, i) => {
        const short = spelling(value - running[i]);
        running[i] = value;
        return chance() < share ? longer(short, Math.min(7, short.length + 1 + below(3))) : short;
      })
      .join('');
  return lines
    .map((line) => {
      running[0] = 0;
      return line.map(one).join(',');
    })
    .join(';');
}

// ---------------------------------------------------------------------------------------------
// The texts that are accepted.
// ---------------------------------------------------------------------------------------------

const MOST = 2147483648;

// By hand: each text with the places that are asked.
const BY_HAND = [
  ['', [[1, 1], [2, 5], [MOST, MOST]]],
  [';', [[1, 1], [2, 1], [3, 1]]],
  [';;;', [[4, 1], [4, MOST]]],
  ['A', [[1, 1], [1, 2], [2, 1], [1, MOST]]],
  ['C', [[1, 1], [1, 2], [1, 3]]],
  ['AAAA', [[1, 1], [1, 100], [2, 1]]],
  ['AAAAA', [[1, 1], [1, 7]]],
  ['AAAA,CAAC;AACA', [[1, 1], [1, 2], [1, 6], [2, 1], [2, 9], [3, 1]]],
  ['ACAAC;AAAAA', [[1, 1], [2, 1]]],
  ['AAAA,CAAC,C,CAAC', [[1, 1], [1, 2], [1, 3], [1, 4], [1, 5]]],
  ['A,A,A', [[1, 1], [1, 2]]],
  ['A,AAAA', [[1, 1], [1, 3]]],
  ['AAAA,A', [[1, 1], [1, 3]]],
  ['AAAA,AACA,AACA', [[1, 1], [1, 2]]],
  ['EAAA,AAAC,CAAC,AACA,A', [[1, 2], [1, 3], [1, 4]]],
  ['KAAAA,AAAAC,A,AAAAC', [[1, 5], [1, 6], [1, 7]]],
  ['+/////D', [[1, 1], [1, 2147483647], [1, MOST]]],
  ['+/////DAAA;C', [[1, MOST], [2, 1], [2, 2]]],
  ['A+/////D+/////D+/////D+/////D', [[1, 1], [1, MOST]]],
  ['A+/////D+/////D+/////D+/////D;A//////D//////D//////D//////D', [[1, 1], [2, 1]]],
  ['8/////B,8/////B,E', [[1, 1073741823], [1, 1073741824], [1, 2147483647], [1, MOST]]],
  ['AAgggggCA', [[1, 1]]],
  ['gAgAgAgA', [[1, 1]]],
  ['ggggggA', [[1, 1]]],
  ['ggggggAggggggAggggggAggggggAggggggA', [[1, 1]]],
  ['igggggA,igggggAigggggAigggggAigggggA', [[1, 1], [1, 2], [1, 3]]],
  ['AAAA;;;;KAEG;;AACA', [[1, 1], [2, 1], [5, 5], [5, 6], [6, 6], [7, 1], [8, 1]]],
  [';;;;;AAAA', [[5, 1], [6, 1], [6, 1000000]]],
  ['AAAA;', [[1, 1], [2, 1]]],
  ['ACAA;ADAA;ACAA', [[1, 1], [2, 1], [3, 1]]],
  ['AAUA;AAVA', [[1, 1], [2, 1]]],
  ['AAAU;AAAV,C', [[1, 1], [2, 1], [2, 2]]],
  ['AAAAU,CAAAV;EAAAU', [[1, 1], [1, 2], [2, 2], [2, 3]]],
  ['AAAAE,UACAC,UAEAD,UAEAF,U', [[1, 1], [1, 11], [1, 21], [1, 31], [1, 40], [1, 41]]],
  ['AAAAC;AAAA;AAAAC', [[1, 1], [2, 1], [3, 1]]],
  ['AAAA,C,CAAC,C,CAAC,C', [[1, 1], [1, 2], [1, 3], [1, 4], [1, 5], [1, 6]]],
  ['A;A;AAAA;A', [[1, 1], [2, 1], [3, 1], [4, 1], [5, 1]]],
  ['gBAAA,gBAAgB,gBAAhB', [[1, 16], [1, 17], [1, 32], [1, 33], [1, 48], [1, 49]]],
  ['ggggggCAAA', [[1, 1073741824], [1, 1073741825]]],
];

// Empty pieces, which are skipped.
const EMPTY_PIECES = [
  [',', [[1, 1]]],
  [',,,;,', [[1, 1], [2, 1]]],
  [',AAAA', [[1, 1]]],
  ['AAAA,', [[1, 1], [1, 2], [2, 1]]],
  ['AAAA,,CAAC', [[1, 1], [1, 2]]],
  ['AAAA,,,CAAC,;,,AACA,,', [[1, 1], [1, 2], [2, 1], [3, 1]]],
  [';,,;AAAAA,,UAACC', [[1, 1], [2, 1], [3, 1], [3, 10], [3, 11]]],
  [',C,,C;,E', [[1, 1], [1, 2], [1, 3], [2, 2], [2, 3]]],
];

// Random segments. `wide` is the largest step of a column or of a line.
function someLines(lineCount, segmentCount, wide) {
  const last = [0, 0, 0, 0, 0];
  const moved = (value, step) => Math.max(0, Math.min(2147483647, value + below(2 * step + 1) - step));
  const lines = [];
  for (let i = 0; i < lineCount; i++) {
    const line = [];
    last[0] = 0;
    const count = chance() < 0.2 ? 0 : 1 + below(segmentCount);
    for (let j = 0; j < count; j++) {
      if (chance() < 0.75) last[0] = Math.min(2147483647, last[0] + below(wide));
      const fields = pick([1, 4, 4, 5, 5]);
      if (fields > 1) {
        last[1] = moved(last[1], 3);
        last[2] = moved(last[2], wide);
        last[3] = moved(last[3], wide);
      }
      if (fields > 4) last[4] = moved(last[4], 5);
      line.push(last.slice(0, fields));
    }
    lines.push(line);
  }
  return lines;
}

// A few places worth asking about: at, before and after a mapping, and off the text.
function askSome(text, lines, howMany) {
  const places = [];
  lines.forEach((line, i) => {
    for (const segment of line) {
      places.push([i + 1, segment[0] + 1], [i + 1, segment[0] + 2]);
      if (segment[0] > 0) places.push([i + 1, segment[0]]);
    }
    places.push([i + 1, line.length === 0 ? 1 + below(50) : MOST]);
  });
  if (chance() < 0.15) places.push([lines.length + 1, 1]);
  for (let i = 0; i < howMany; i++) {
    const [line, column] = pick(places);
    ask(text, line, Math.min(column, MOST));
  }
}

function makeAnswers() {
  for (const [text, places] of BY_HAND) {
    for (const [line, column] of places) ask(text, line, column);
  }
  for (const [text, places] of EMPTY_PIECES) {
    for (const [line, column] of places) ask(text, line, column);
  }
  for (const wide of [3, 20, 1000, 1000000, 2000000000]) {
    for (let i = 0; i < 9; i++) {
      const lines = someLines(1 + below(4), 5, wide);
      const text = i % 3 === 2 ? spelled(lines, 0.3) : codec.encode(lines);
      if (text.length <= 120) askSome(text, lines, 3);
    }
  }
  makeRealAnswers();
}

// Pieces of the real text in examples/.
function makeRealAnswers() {
  const file = path.join(__dirname, '..', '..', 'examples', 'jquery.min.mappings');
  const real = fs.readFileSync(file, 'utf8').replace(/\n$/, '');
  insist(checked(real).kind === 0, 'the real text is not accepted');
  insist(trimmed(codec.decode(real)) === trimmed(checked(real).lines), 'the real text is read otherwise');

  // The beginning as it stands, cut before a comma.
  const head = real.slice(0, real.lastIndexOf(',', 390));
  askSome(head, codec.decode(head), 6);

  // Pieces from the middle as they stand: the running values start from 0 in them, so that only
  // some are accepted.
  const pieces = real.slice(1).split(',');
  let taken = 0;
  while (taken < 12) {
    const begin = below(pieces.length - 20);
    const text = pieces.slice(begin, begin + 3 + below(15)).join(',');
    if (refusalOf(text) !== null || Buffer.byteLength(text) > 120) continue;
    askSome(text, codec.decode(text), 2);
    taken += 1;
  }

  // Pieces from the middle at their true places, on one line or cut into several.
  const line = codec.decode(real)[1];
  for (let i = 0; i < 14; i++) {
    const begin = below(line.length - 40);
    const part = line.slice(begin, begin + 4 + below(i < 2 ? 34 : 10));
    const lines = [[]];
    for (const segment of part) {
      if (i % 2 === 1 && chance() < 0.2) lines.push([]);
      lines[lines.length - 1].push(segment);
    }
    askSome(codec.encode(lines), lines, 3);
  }
}

// ---------------------------------------------------------------------------------------------
// The texts that are refused.
// ---------------------------------------------------------------------------------------------

const REFUSED = [
  // A byte that is no digit.
  'A!A', '!', 'AAAA,AA A', 'AAAA;CAAA,====', 'AAAA,CAA\u00e9', 'A-_A', 'AAAA:CAAC', 'B!AA',
  'gggggggggg!', '"AAAA"', 'AAAA,CAAC;AACA.', 'AA!g',
  // A last digit that asks for another.
  'Ag', 'g', 'AAAg,AAAA', 'AAAA;;/', 'gggggggAg', 'AAAA,BAg', 'ggggggg', 'AAgggggggggg;A',
  // More than seven digits.
  'gggggggA', 'AAAgggggggA', 'hgggggggA', 'AAAA,gggggggAB', 'gggggggAgggggggggA', 'BggggggggA', 'gggggggAggggggE',
  // A magnitude past the limit.
  'ggggggE', 'hgggggE', 'AAAA//////f', 'ggggggEB', 'BggggggE', 'C,ggggggI', 'AA//////fA',
  // A zero with a minus sign.
  'B', 'BA', 'hA', 'hgggggA', 'AAAB', 'A,AAAAB', ';,,;AAAA,B', 'AB',
  // A number of fields that is not 1, 4 or 5.
  'AA', 'AAA', 'AAAAAA', 'AAAA,CC', 'DD', 'AAAA;AAAAAAAAA', 'A,+/////DC', 'CA,DAAA', 'C,DA',
  // A running value below 0.
  'D', 'DAAA', 'ADAA', 'AADA', 'AAAD', 'AAAAD', 'AAAA,DAAA', 'A,DAAA,B', 'AAAAC,CAAAH', 'ACAA;AFAA',
  'A+/////DDA', 'A+/////DAA,ACDA', 'CAAA;DAAA', 'AAAA,//////D',
  // A running value past the limit.
  '+/////D,C', 'A+/////DAA,ACAA', 'AA+/////DA;AACA', 'AAA+/////D;AAAC', 'AAAA+/////D,AAAAC',
  '+/////DAAA,AAAC,CAAA', '8/////B,8/////B,I', 'C+/////DAA,DCAA',
  // A column that falls on its line.
  'CAAA,DAAA', 'C,D', 'AAAA;EAAA,C,D', 'K,AAAA,FACA', 'gggggD,,D', '+/////D,//////D', 'UAAAA,VAAAA',
  ';;;kDAAA,D', 'CA,DAAA',
];

function makeRefusals() {
  for (const text of REFUSED) refuse(text);
  refuse('CAAA,DAAA', 7, 9);
  refuse('AAAA;B', 1, 1);
  refuse('AAAA;B', MOST, MOST);
  // An accepted text of which a random byte is changed.
  const bytes = DIGITS + DIGITS + ',;! =~';
  let made = 0;
  while (made < 24) {
    const text = codec.encode(someLines(1 + below(3), 5, pick([4, 40, 100000])));
    if (text.length < 8 || text.length > 100) continue;
    const place = below(text.length);
    const changed = text.slice(0, place) + pick(bytes) + text.slice(place + 1);
    if (refusalOf(changed) === null || /\s$/.test(changed)) continue;
    refuse(changed, 1 + below(3), 1 + below(40));
    made += 1;
  }
}

makeAnswers();
const answers = rows.length;
makeRefusals();

// Each text that has an answer, with its mappings, all numbers from 0.
const decoded = [...new Set(rows.slice(0, answers).map(({ text }) => text))].map((text) => {
  const lines = linesOf(text);
  const list = lines.flatMap((line, number) => line.map((segment) => [number, ...segment]));
  const used = lines.filter((line) => line.length > 0);
  const held = [list.length, used.length, list.map((mapping) => mapping.join(',')).join(' ')];
  // At every so many segments of a line.
  const checkpointsAt = (interval) => used.reduce((sum, line) => sum + Math.ceil(line.length / interval), 0);
  return { text, list, held, checkpointsAt };
});

const EACH = '%K';

putRows(
  'Mappings of texts and indexes',
  __filename,
  decoded.flatMap(({ text, held, checkpointsAt }) => [
    row(['decode', text], held),
    row(['next', text], held),
    row(['index', text, EACH], atEach((interval) => [...held, checkpointsAt(interval)])),
  ]),
);

// The places of the mappings, those beside them, and those below on the next line.
function placesAround(list) {
  const around = list.flatMap(([line, column]) =>
    [line, line + 1].flatMap((on) => [0, Math.max(column - 1, 0), column, column + 1].map((at) => `${on},${at}`)),
  );
  const places = [...new Set(around)].map((place) => place.split(',').map(Number));
  return places.sort((one, other) => one[0] - other[0] || one[1] - other[1]);
}

putRows(
  'Look-ups around each mapping',
  __filename,
  decoded.flatMap(({ text, list }) => {
    const places = placesAround(list);
    const asked = places.map((place) => place.join(',')).join(' ');
    const answered = (answer) => [places.map(([line, column]) => answer(list, line, column)).join(' '), 'few'];
    if (places.length === 0) return [];
    return [row(['look_up', text, EACH, asked], answered(lastBefore)), row(['look_up_from', text, EACH, asked], answered(firstFrom))];
  }),
);

function runs(some, answer) {
  return some.map(({ text, line, column, expected }) =>
    run(['raw', '--interval', EACH, String(line), String(column)], text, answer(expected)),
  );
}

putRows('raw: look-ups in texts that are accepted', __filename, runs(rows.slice(0, answers), (line) => [0, `${line}\n`, '']));
putRows('raw: texts that are refused', __filename, runs(rows.slice(answers), (line) => [1, '', `${line}\n`]));

const tally = {};
for (const { expected } of rows) {
  const kind = expected.startsWith('refused')
    ? expected.split(' ')[1]
    : expected.replace(/\d+/g, '').replace(/ +/g, ' ').trim();
  tally[kind] = (tally[kind] || 0) + 1;
}
console.log(`${answers} answers, ${rows.length - answers} refusals`);
console.log(`trace-mapping agreed on ${counts.traced}, source-map's consumer on ${counts.consumed}`);
console.log(
  `not compared: ${counts.equalColumns} answered among equal columns, ` +
    `${counts.large} with steps too large for source-map, ${counts.many} with too many sources or names`,
);
console.log(tally);
