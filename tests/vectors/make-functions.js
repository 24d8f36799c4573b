#!/usr/bin/env node
// Makes the rows of `rewrite --names`: programs of a few functions with maps that this script makes, and frames of them. README.md
// beside this file says what they are.
//
//   node make-functions.js       writes its rows of smap_rows and prints the counts
//
// Names are those of the model of the rules, tests/compare-names/rule.js; nothing here is made from smap's own code or output.
'use strict';

const { RULES, THE_RULE, Text } = require('../compare-names/rule.js');
const { chanceFrom } = require('./chance.js');
const { putRows, run } = require('./rows.js');

const URL = 'https://ex.test/app.js';
const DIGITS = 'ABCDEFGHIJKLMNOPQRSTUVWXYZabcdefghijklmnopqrstuvwxyz0123456789+/';
const IS_NAME = /^[A-Za-z0-9_$\x80-\uFFFF]+$/;

function vlq(number) {
  let left = number < 0 ? -number * 2 + 1 : number * 2;
  let text = '';
  do {
    const digit = left % 32;
    left = (left - digit) / 32;
    text += DIGITS[left > 0 ? digit + 32 : digit];
  } while (left > 0);
  return text;
}

// A program: its text, of which `{{NAME}}` and `{{}}` mark mappings, with a name and without; the K-th of them, from 0, leads to
// line K+1, column 2K+1 of a.ts.
function program(marked) {
  const mappings = [];
  let text = '';
  for (const part of marked.split(/(\{\{.*?\}\})/)) {
    const mark = /^\{\{(.*)\}\}$/.exec(part);
    if (mark === null) text += part;
    else mappings.push({ at: text.length, name: mark[1] === '' ? undefined : mark[1] });
  }
  return { text, mappings };
}

function place({ text }, at) {
  const before = text.slice(0, at).split('\n');
  return { line: before.length, column: before[before.length - 1].length + 1 };
}

function mapText({ text, mappings }) {
  const names = [...new Set(mappings.flatMap(({ name }) => (name === undefined ? [] : [name])))];
  const lines = text.split('\n').map(() => []);
  mappings.forEach((mapping, k) => lines[place({ text }, mapping.at).line - 1].push({ ...mapping, k }));
  let [last, lastName] = [-1, 0];
  const spelled = lines.map((line) => {
    let before = 0;
    return line.map(({ at, name, k }) => {
      const { column } = place({ text }, at);
      let segment = vlq(column - 1 - before) + vlq(0) + (last < 0 ? vlq(k) + vlq(2 * k) : vlq(k - last) + vlq(2 * (k - last)));
      [before, last] = [column - 1, k];
      if (name !== undefined) {
        const number = names.indexOf(name);
        segment += vlq(number - lastName);
        lastName = number;
      }
      return segment;
    }).join(',');
  }).join(';');
  return JSON.stringify({ version: 3, sources: ['a.ts'], names, mappings: spelled });
}

// The name of a function at a place, by the model: its own where nothing decides.
function written({ text, mappings }, name, at) {
  const all = new Text(text).all().filter((entry) => entry.name === name && entry.start <= at);
  const entry = RULES[THE_RULE](all, at);
  if (entry === undefined || entry.kind === 'property') return name;
  const given = mappings.find((mapping) => mapping.at === entry.start);
  return given?.name !== undefined && IS_NAME.test(given.name) ? given.name : name;
}

// The original place of the last mapping at a place or before it on its line.
function original({ text, mappings }, at) {
  const k = mappings.findLastIndex((mapping) => mapping.at <= at && !text.slice(mapping.at, at).includes('\n'));
  return k < 0 ? undefined : `https://ex.test/a.ts:${k + 1}:${2 * k + 1}`;
}

// A frame as it is printed at each `x(` of a program, and what it becomes.
function frames(one, name, form, named = (found) => written(one, name, found)) {
  const [before, after] = [[], []];
  for (const { index } of one.text.matchAll(/x\(/g)) {
    const { line, column } = place(one, index);
    before.push(form(name, `${URL}:${line}:${column}`));
    const to = original(one, index);
    after.push(to === undefined ? before.at(-1) : form(named(index), to));
  }
  return [before, after].map((lines) => lines.map((line) => `${line}\n`).join(''));
}

const v8 = (name, at) => `    at ${name} (${at})`;
const FORMS = {
  plain: v8,
  async: (name, at) => `    at async ${name} (${at})`,
  new: (name, at) => `    at new ${name} (${at})`,
  firefox: (name, at) => `${name}@${at}`,
};
// What is no one name.
const OTHERS = [
  (name, at) => `    at T.${name} (${at})`,
  (name, at) => `    at ${name} [as b] (${at})`,
  (name, at) => `    at async Promise.${name} (${at})`,
  (name, at) => `${name}/<@${at}`,
  (name, at) => `T.${name}@${at}`,
];

// Programs, and the minified name that their frames have.
const PROGRAMS = [
  ['function {{main}}a(){{{}}x()}', 'a'],
  ['function {{}}a(){{{}}x()}', 'a'],
  ['{{main}}function a(){{{}}x()}', 'a'],
  ['function a{{main}}(){{{}}x()}', 'a'],
  ['function {{one}}a(){{{}}x()}function {{two}}a(){{{}}x()}', 'a'],
  ['function {{one}}a(){function {{two}}a(){{{}}x()}{{}}x()}', 'a'],
  ['{{}}x();function {{main}}a(){}', 'a'],
  ['function {{main}}a(){}{{}}x()', 'a'],
  ['function* {{main}}a(){{{}}x()}', 'a'],
  ['async function {{main}}a(){{{}}x()}', 'a'],
  ['class {{Main}}a{constructor(){{{}}x()}}', 'a'],
  ['var {{main}}a=()=>{{{}}x()}', 'a'],
  ['var {{main}}a = async b => {{}}x(b)', 'a'],
  ['var {{main}}a=(b,(c))=>{{}}x(b)', 'a'],
  ['var {{main}}a=function(){{{}}x()}', 'a'],
  ['var {{main}}a=class{static b(){{{}}x()}}', 'a'],
  ['if({{main}}a==function(){}){{}}x()', 'a'],
  ['var {{main}}a=b;{{}}x()', 'a'],
  ['o.{{main}}a=function(){{{}}x()}', 'a'],
  ['o={{{main}}a:function(){{{}}x()}}', 'a'],
  ['o={{{main}}a(){{{}}x()}}', 'a'],
  ['function {{one}}a(){o={{{two}}a(){{{}}x()}};{{}}x()}', 'a'],
  ['function {{main}}ab(){{{}}x()}', 'a'],
  ['function {{main}}$a(){{{}}x()}', '$a'],
  ['function {{größe}}a(){{{}}x()}', 'a'],
  ['function {{main}}é(){{{}}x()}', 'é'],
  ['function {{","admin":true,"}}a(){{{}}x()}', 'a'],
  ['function {{main}}a(){\n{{}}x();\n x();\n{{}}x()}\n{{}}x()', 'a'],
  ['function {{main}}if(){{{}}x()}if(b){{{}}x()}', 'if'],
];

const FILES = (one, map = 'app.js.map', file = 'app.js') => [[map, mapText(one)], [file, one.text]];
const ASK = ['rewrite', '--names'];

function programRows() {
  return PROGRAMS.map(([marked, name], i) => {
    const one = program(marked);
    const texts = Object.values(FORMS).map((form) => frames(one, name, form));
    const [before, after] = [0, 1].map((side) => texts.map((pair) => pair[side]).join(''));
    return run([...ASK, `${URL}=app.js.map`], before, [0, after, ''], FILES(one));
  });
}

const ONE = program('function {{main}}a(){{{}}x()}');
const [BEFORE, AFTER] = frames(ONE, 'a', v8);
const STAYS = frames(ONE, 'a', v8, () => 'a')[1];
const summary = (maps, missing) => `ok lines 1 frames 1 mapped 1 hidden 0 long 0 maps ${maps} missing ${missing} refused 0 passed 0\n`;

function otherRows() {
  const others = OTHERS.map((form) => frames(ONE, 'a', form, () => 'a'));
  const misfit = { ...ONE, text: 'functionnnn a(){x()}' };
  const at = (list, files, errors = '', after = AFTER, input = BEFORE) => run([...ASK, ...list], input, [0, after, errors], files);
  return [
    at([`${URL}=app.js.map`], FILES(ONE), '', others.map((pair) => pair[1]).join(''), others.map((pair) => pair[0]).join('')),
    at([`${URL}=dist/app.js.map`], FILES(ONE, 'dist/app.js.map', 'dist/app.js')),
    at(['https://ex.test/=out/'], FILES(ONE, 'out/app.js.map', 'out/app.js')),
    at(['*app.js=b.map'], FILES(ONE, 'b.map', 'b')),
    at(['--maps', 'list', '--cache', '0'], [['list', `${URL}\tapp.js.map\n`], ...FILES(ONE)]),
    at(['--summary', `${URL}=app.js.map`], FILES(ONE), summary(1, 0)),
    at(['--summary', `${URL}=app.js.map`], FILES(ONE).slice(0, 1), `names: no app.js\n${summary(1, 0)}`, STAYS),
    at([`${URL}=app.json`], FILES(ONE, 'app.json', 'app'), 'names: no file beside app.json\n', STAYS),
    at([`${URL}=app.js.map`], [['app.js.map', mapText(ONE)], ['app.js', misfit.text]], 'names: app.js.map does not fit app.js\n', STAYS),
    at([`${URL}=app.js.map`], FILES(ONE).slice(0, 1), 'names: no app.js\n', STAYS.repeat(2), BEFORE.repeat(2)),
    at(['*=app.js.map'], FILES(ONE).slice(0, 1), 'names: no app.js\n',
      STAYS + STAYS.replaceAll('https://ex.test/', 'https://b.test/'), BEFORE + BEFORE.replaceAll('https://ex.test/', 'https://b.test/')),
    at([`${URL}=a\tb.map`], FILES(ONE, 'a\tb.map', 'a\tb').slice(0, 1), 'names: no a?b\n', STAYS),
    run(['rewrite', `${URL}=app.js.map`], BEFORE, [0, STAYS, ''], FILES(ONE)),
  ];
}

// What programs are made of by chance: W is a written name, N the minified one, and M what stands in a body.
const PIECES = [
  'function {{W}}N(){ M{{}}x()}',
  'function*{{W}}N(){ {{}}x();M}',
  'var {{W}}N=()=>{ M{{}}x()};',
  'var {{W}}N = async (c,(d))=>{{}}x(c);',
  'var {{W}}N=function(){ M{{}}x()};',
  'let {{W}}N=class{static{ M{{}}x()}};',
  'class {{W}}N extends b{constructor(){ {{}}x();M}}',
  'o.{{W}}N=function(){ M{{}}x()};',
  'o={"{{W}}N":()=>{ M{{}}x()}};',
  'o={ {{W}}N(){ M{{}}x()}};',
  'if({{W}}N==1){{}}x();',
  'var {{W}}N=1;{{}}x();',
  '{{W}}N(1);M{{}}x();',
  '"function N(){";{{}}x();',
  '/*N=>*/{{}}x();\n',
  '{{}}x();\nM',
];
const WRITTEN = ['main', 'other', 'größe', '', 'a b', '$1', 'Main'];

function programBy({ below, pick }, depth) {
  const piece = () => pick(PIECES)
    .replaceAll('N', pick(['a', 'a', 'b', 'ab']))
    .replace('M', () => (depth > 0 && below(2) === 0 ? programBy({ below, pick }, depth - 1) : ''))
    .replace('{{W}}', `{{${pick(WRITTEN)}}}`);
  return Array.from({ length: 1 + below(3) }, piece).join('');
}

// As many rows of such programs, of which every other has its frames in a string of JSON.
function chanceRows(many) {
  const random = chanceFrom(82);
  return Array.from({ length: many }, (_, i) => {
    const one = program(programBy(random, 2));
    const texts = ['a', 'b'].flatMap((name) => Object.values(FORMS).map((form) => frames(one, name, form)));
    const [before, after] = [0, 1].map((side) => texts.map((pair) => pair[side]).join(''));
    if (i % 2 === 0) return run([...ASK, `${URL}=app.js.map`], before, [0, after, ''], FILES(one));
    const [told, named] = [before, after].map((text) => `${JSON.stringify({ level: 50, stack: `Error: x\n${text}` })}\n`);
    return run([...ASK, '--anywhere', `${URL}=app.js.map`], told, [0, named, ''], FILES(one));
  });
}

const rows = [...programRows(), ...otherRows(), ...chanceRows(300 - PROGRAMS.length - otherRows().length)];
putRows('rewrite --names', __filename, rows);
console.log(`${rows.length} rows, ${PROGRAMS.length} programs`);
