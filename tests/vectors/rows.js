// Rows of crates/smap_rows: how their fields are written, and the sections that the scripts beside this file make. README.md has
// the form.
'use strict';

const fs = require('fs');
const path = require('path');

const FOLDER = path.join(__dirname, '..', '..', 'crates', 'smap_rows');
const INTERVALS = [1, 2, 3, 64, 4096];
// So many equal bytes in a row are written as one and their number.
const MANY = 100;
const NAMED = { '\t': '\\t', '\n': '\\n', '\r': '\\r', '\\': '\\\\' };

function insist(holds, what) {
  if (!holds) throw new Error(what);
}

function escapedChar(char) {
  if (char in NAMED) return NAMED[char];
  if (char >= ' ' && char !== '\u007f') return char;
  return `\\x${char.charCodeAt(0).toString(16).toUpperCase().padStart(2, '0')}`;
}

// A text with an escape for each character that is no printed one of a line.
function escaped(text) {
  insist(text.isWellFormed(), 'a text that is no UTF-8');
  const runs = text.match(/([^])\1*/gu) ?? [];
  return runs
    .map((run) => {
      const char = escapedChar(String.fromCodePoint(run.codePointAt(0)));
      const many = run.length >= MANY && run.charCodeAt(0) < 0x80;
      return many ? `\\{${run.length}}${char}` : char.repeat([...run].length);
    })
    .join('');
}

// A field that is asked: an @ at its beginning would stand for a file.
function field(value) {
  const text = escaped(String(value));
  return text.startsWith('@') ? `\\${text}` : text;
}

// What a row has as it stands.
class Written {
  constructor(text) {
    this.text = text;
  }
}

// The words of a command line, behind `smap`.
function words(...list) {
  return new Written(['smap', ...list].map((word) => escaped(word).replaceAll(' ', '\\x20')).join(' '));
}

// The contents of a file in data/.
function file(name) {
  return new Written(`@${name}`);
}

// Puts a file into data/.
function putFile(name, text) {
  const place = path.join(FOLDER, 'data', name);
  fs.mkdirSync(path.dirname(place), { recursive: true });
  fs.writeFileSync(place, text);
}

// What comes of a row at each interval, of which a row has one where all are the same.
function atEach(answerAt) {
  const answers = INTERVALS.map(answerAt);
  const texts = answers.map((answer) => JSON.stringify(answer));
  return new Set(texts).size === 1 ? answers[0] : answers.flat();
}

// A row: the fields that are asked, and those of the answer.
function row(asked, answer) {
  return {
    asked: asked.map((value) => (value instanceof Written ? value.text : field(value))).join('\t'),
    answer: answer.map((value) => escaped(String(value))).join('\t'),
  };
}

// A run of the program over files: the words of its command line, standard input, and the status, standard output and standard
// error; and pairs of a path and a text.
function run(list, input, [status, output, errors], files = []) {
  return row(['run', words(...list), input, ...files.flat()], [status, output, errors]);
}

// The text of a file that a field stands for.
function readFile(field) {
  insist(field.startsWith('@'), 'a field that is no file');
  return fs.readFileSync(path.join(FOLDER, 'data', field.slice(1)), 'utf8');
}

// The lines of a section.
function linesIn(name, title) {
  const text = fs.readFileSync(path.join(FOLDER, name), 'utf8');
  const lines = text.split('\n');
  const begin = lines.indexOf(`# ${title}`) + 1;
  insist(begin > 0, `there is no section: ${title}`);
  const end = lines.findIndex((line, i) => i >= begin && (line.startsWith('# ') || i === lines.length - 1));
  return lines.slice(begin, end);
}

// The rows of a section that another script makes: the fields that are asked, as they stand, and those of the answer.
function rowsIn(title, script) {
  const [asked, answers] = ['stdin', 'stdout'].map((name) => linesIn(name, `${title}, made by tests/vectors/${script}`));
  insist(asked.length === answers.length, 'another number of answers');
  return asked.map((line, i) => [line.split('\t'), answers[i].split('\t')]);
}

// The text of a file with other lines in the section of this title.
function withSection(text, title, lines) {
  const heading = `# ${title}\n`;
  insist(text.startsWith(heading) || text.includes(`\n${heading}`), `there is no section: ${title}`);
  const begin = (text.startsWith(heading) ? 0 : text.indexOf(`\n${heading}`) + 1) + heading.length;
  const next = text.startsWith('# ', begin) ? begin : text.indexOf('\n# ', begin - 1) + 1;
  const end = next === 0 ? text.length : next;
  return `${text.slice(0, begin)}${lines.map((line) => `${line}\n`).join('')}${text.slice(end)}`;
}

// Puts rows into the section that a script makes, in place of those that stand there.
function putRows(title, script, rows) {
  for (const [name, key] of [['stdin', 'asked'], ['stdout', 'answer']]) {
    const place = path.join(FOLDER, name);
    const lines = rows.map((one) => one[key]);
    const text = withSection(fs.readFileSync(place, 'utf8'), `${title}, made by tests/vectors/${path.basename(script)}`, lines);
    fs.writeFileSync(place, text);
  }
}

module.exports = { atEach, file, putFile, putRows, readFile, row, rowsIn, run, words };
