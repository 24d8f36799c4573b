#!/usr/bin/env node
// Makes the rows of the names of sources. README.md beside this file says what they are.
//
//   node make-names.js       writes its rows of smap_rows and prints the counts
//
// The answers are those of node's `new URL`; nothing here is made from smap's own code or output.
'use strict';

const { putRows, row } = require('./rows.js');

function insist(holds, what) {
  if (!holds) throw new Error(what);
}

const SCRIPT = 'https://ex.test/js/app.js';
const TAGGED = 'https://ex.test/js/app.js?v=1#top';
const LOCAL = 'file:///home/me/out/app.js.map';
const DRIVE = 'file:///C:/out/app.js';
const BUNDLE = 'webpack:///out/app.js';
const NAMED = 'webpack://app/out/app.js';
const DATA = 'data:application/json,x';
const MAIL = 'mailto:me@ex.test';

// Sources by base, without a root.
const PLAIN = [
  [SCRIPT, [
    'a.ts', './a.ts', '../src/a.ts', '../../../a.ts', '/a.ts', '//cdn.test/a.ts', 'a/./b/../c.ts', '.', '..', '',
    'a.ts?v=2#l1', '?x', '#f', ' a.ts ', 'a b.ts', 'a%20b.ts', '%2e%2e/a.ts', '%2E/a.ts', 'a%2Fb.ts', 'a%zz.ts',
    'a"<>`{}.ts', "a'b.ts?q='\"<>", '[name].ts', 'ä.ts', '源/文件.ts', '😀.ts', 'a.ts?ä', 'a.ts#ä', 'src\\a.ts',
    '..\\a.ts', 'C:\\src\\a.ts', 'C:/src/a.ts', 'https:b.ts', 'https:/b.ts', 'http:b.ts', 'webpack:///./src/a.ts',
    'file:///a.ts', ':a', '1a:b.ts', 'node:fs', 'a;b,c.ts', 'ng:///AppModule/App.ngfactory.js', '///cdn.test/a.ts',
    '\\\\cdn.test\\a.ts', '//', 'a//b.ts', 'a/..', 'a/../', '<anonymous>', '__tests__/a.ts', '~/a.ts', '@x/y.ts',
  ]],
  [TAGGED, ['', '?x', '#f', 'a.ts', '.', '/']],
  [LOCAL, [
    'a.ts', '../src/a.ts', '../../../../a.ts', '/a.ts', '//host/a.ts', 'file:a.ts', 'file:/a.ts', 'file://localhost/a.ts',
    'C:\\src\\a.ts', '/C:/a.ts', 'src\\a.ts', '\\\\host\\share\\a.ts', 'file:///C:/../a.ts', 'file:C:/a.ts', '',
  ]],
  [DRIVE, ['a.ts', '/a.ts', '../../../a.ts', '/D:/a.ts', 'D:/a.ts', '..\\src\\a.ts']],
  [BUNDLE, ['a.ts', '../a.ts', '../../a.ts', '/a.ts', '', '#f', 'src\\a.ts', '//x/a.ts']],
  [NAMED, ['a.ts', '../../a.ts', '/./src/a.ts', '']],
  [DATA, ['a.ts', '#f', '', '?x', '/a.ts', 'https://ex.test/a.ts', ' ']],
  [MAIL, ['a.ts', '#f']],
  [null, [
    'a.ts', './a.ts', '../a.ts', '/a.ts', '//x.test/a.ts', '', ' ', ' a.ts ', '?x', '#f', ':a', '1a:b', 'a:b', 'a: b',
    'webpack:///src/../a.ts', 'webpack:///../a.ts', 'webpack://app/./src/a.ts',
    'webpack://App/./src/a.ts', 'webpack:///(webpack)/buildin/module.js', 'webpack:///external "x"',
    'webpack://app/webpack/bootstrap 1a2b', 'webpack://@x/y/./a.ts', 'webpack://a b/c.ts', 'webpack:a.ts',
    'webpack:///a.ts?1a2b', 'webpack-internal:///./a.ts', 'webpack:///./ä.ts', 'webpack://ä/a.ts', 'WEBPACK:///A.ts',
    'webpack:///C:\\src\\a.ts', 'file:///home/me/a.ts', 'file://host/a.ts', 'file:a.ts', 'file:', 'file:///C:/src/../a.ts',
    'file:\\\\\\C:\\a.ts', 'C:\\src\\a.ts', 'C:/src/a.ts', 'c:', '\\\\host\\share\\a.ts', 'https://EX.Test:443/a.ts',
    'https://ex.test:8080/a.ts', 'https://ex.test', 'https:ex.test/a.ts', 'https://', 'http:', 'https://ex.test:99999/',
    'https://ex.test:x/', 'https://ex test/a.ts', 'https://u:p@ex.test/a.ts', 'https://u@/a.ts', 'http://[::1]/a.ts',
    'http://[0:0:0:0:0:0:0:1]:80/a.ts', 'http://[::1/a.ts', 'http://0x7f.1/a.ts', 'http://256.0.0.1/a.ts',
    'http://1.2.3.4.5/a.ts', 'https://bücher.test/ä.ts', 'https://BÜCHER.test/a.ts', 'https://例え.test/a.ts',
    'https://a%20b/c.ts', 'https://ex%41.test/a.ts', 'https://ex.test/a b.ts ', 'https://ex.test/%zz', 'data:text/plain,x',
    'data:text/plain,a b ', 'data:,ä', 'blob:https://ex.test/1', 'about:blank', 'javascript:void 0', 'node:internal/fs',
    'rollup:virtual', 'ng:///AppModule/a.ts', 'vite/modulepreload-polyfill', 'meteor://💻app/a.js', 'a+b-c.d:x', '+a:x',
    'ä:x', 'http://ex.test\\a.ts', 'turbopack://[project]/a.ts', 'turbopack:///[project]/a.ts',
  ]],
];

// Roots with sources and bases.
const ROOTED = [
  ['', 'a.ts', SCRIPT], ['', '/a.ts', SCRIPT], ['', '', null],
  ['src/', 'a.ts', SCRIPT], ['src//', 'a.ts', SCRIPT], ['/', 'a.ts', SCRIPT], ['/', '/a.ts', SCRIPT],
  ['/src', 'a.ts', SCRIPT], ['/src', '../a.ts', SCRIPT], ['../lib', 'a.ts', SCRIPT], ['.', 'a.ts', SCRIPT],
  ['..', '../a.ts', SCRIPT], ['src', '/a.ts', SCRIPT], ['src', '', SCRIPT], ['src', '..', SCRIPT],
  ['src', 'https://ex.test/a.ts', SCRIPT], ['src', 'a.ts?x#y', SCRIPT], ['src?x', 'a.ts', SCRIPT],
  ['src#x', 'a.ts', SCRIPT], ['src\\', 'a.ts', SCRIPT], [' ', 'a.ts', SCRIPT], [' src', 'a.ts ', SCRIPT],
  ['ä', 'ö.ts', SCRIPT], ['https:', 'a.ts', SCRIPT], ['//cdn.test', 'a.ts', SCRIPT], ['src', 'a.ts', TAGGED],
  ['src', 'a.ts', LOCAL], ['/src', 'a.ts', DRIVE], ['C:\\src', 'a.ts', DRIVE], ['src', 'a.ts', BUNDLE],
  ['src', 'a.ts', NAMED], ['src', 'a.ts', DATA], ['src', '', null], ['src/', '', null],
  ['/', '', null], ['/src/', 'a.ts', null], ['src', 'webpack:///./a.ts', null],
  ['https://cdn.test/s/', 'a.ts', null], ['https://cdn.test/s', '../a.ts', null], ['https://cdn.test', 'a.ts', null],
  ['https://cdn.test/s', 'a.ts', SCRIPT], ['https://cdn.test/s?x', 'a.ts', null], ['https://', 'cdn.test/a.ts', null],
  ['https:', 'a.ts', null], ['webpack://', 'a.ts', null], ['webpack:///', 'src/a.ts', null],
  ['webpack://app', './a.ts', null], ['webpack:', 'a.ts', null], ['file:///C:\\src', 'a.ts', null],
  ['file:///src', 'a.ts', LOCAL], ['file:', 'a.ts', LOCAL], ['data:x', 'a.ts', null], ['mailto:me', 'a.ts', MAIL],
  ['https://ex.test:99999', 'a.ts', SCRIPT], ['ä', 'ö.ts', null], ['\\', 'a.ts', null],
];

// The root goes before the source, with a slash between them where it has none; an empty one is none.
function prefixed(root, source) {
  if (root === null || root === '') return source;
  return root.endsWith('/') ? root + source : `${root}/${source}`;
}

// The name, and whether it is a URL.
function nameOf(root, source, base) {
  const text = prefixed(root, source);
  try {
    return [base === null ? new URL(text).href : new URL(text, base).href, 'url'];
  } catch (error) {
    insist(error.code === 'ERR_INVALID_URL', `node does not answer ${text}`);
    return [text, 'text'];
  }
}

const asked = [...PLAIN.flatMap(([base, sources]) => sources.map((source) => [null, source, base])), ...ROOTED];
const rows = asked.map(([root, source, base]) => {
  const fields = [root ?? '-', source, base ?? '-', ...nameOf(root, source, base)];
  insist(fields.every((field) => !/[|\t\r\n]/.test(field)), `a field that no row can hold: ${fields}`);
  insist(root !== '-' && base !== '-', 'a text that stands for none');
  return fields;
});

insist(new Set(rows.map((fields) => fields.join('|'))).size === rows.length, 'a row stands twice');

putRows(
  'Names of sources',
  __filename,
  rows.map(([root, source, base, ...name]) => row(['resolve', root, source, base], name)),
);
console.log(`${rows.length} rows, ${rows.filter((fields) => fields.at(-1) === 'url').length} of them URLs`);
