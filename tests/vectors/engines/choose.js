#!/usr/bin/env node
// Chooses of seen.json, which record.js writes, a line of each form that an engine printed, for lines.txt; and says where
// the place that is read of a line is another than the engine itself has for it.
//
//   node tests/vectors/engines/choose.js
'use strict';

const fs = require('fs');
const path = require('path');
const { frameOf } = require('../make-engines.js');

const SEEN = JSON.parse(fs.readFileSync(path.join(__dirname, 'seen.json'), 'utf8'));
const FAMILY = { node: 'V8', chromium: 'V8', firefox: 'SpiderMonkey', js102: 'SpiderMonkey', jsc: 'JavaScriptCore' };
const NAMES = [...new Set(Object.values(SEEN).flatMap((pages) => pages.cases.map(({ name }) => name)))].filter((name) => /^[\w .,:]+$/.test(name));
const ESCAPED = new RegExp(`(?<![\\w.#/])(${NAMES.sort((a, b) => b.length - a.length).map((name) => name.replace(/[.]/g, '\\.')).join('|')})(?=[@/]| \\()`, 'g');

// Lines are of one form that differ in numbers, in which script of the cases they are, or in the name of a plain function.
function formOf(line) {
  return line
    .replace(/blob:[^ )]*(?=:\d+:\d+)/g, 'blob:B')
    .replace(/data:[^ )]*(?=:\d+:\d+)/g, 'data:D')
    .replace(/(http:\/\/example\.test\/|file:\/\/\/srv\/engines\/|\/srv\/engines\/|(?<=@))(cases|one-line|seen|place|places|module|dep|late|failing|worker)\.(m?js|html)(\?v=2)?/g, 'U')
    .replace(ESCAPED, 'f')
    .replace(/(?<=^|\bat )(fail|deep|f|lost|each|run|made|inline|tick|next|then|inner|waits|several|of|later|wait|grow|most|caught|get|seen|over|tagged|least)(?=@| \()/g, 'f')
    .replace(/at (async )?[#\w.]+ \(node:[^)]*/, 'at $1f (node:n')
    .replace(/at \w+\.\w+ \(<anonymous>\)/, 'at f (<anonymous>)')
    .replace(/^\w+@\[native/, 'f@[native')
    .replace(/\b(Shape|Square|Old|Kept|Module|CASES|Object|Function|Array|HTML\w+)\.(?!prototype)\w+(?= \(|@)/, 'O.f')
    .replace(/(globalThis|assigned|Old)\.\w+(?= \(|@)/, 'O.f')
    .replace(/new (Shape|Square|Old)/, 'new O')
    .replace(/(#|\b)(least|hidden|Shape|Square|Old|renamed|nameless|starDefault|clicked|handleEvent|onmessage|connectedCallback)(?= \(|@)/, '$1f')
    .replace(/(get|set) area/, 'get area')
    .replace(/(a literal|assigned) with/, 'named with')
    .replace(/\/srv\/engines\//, 'S')
    .replace(/\d+/g, '0');
}

const LONGEST = 220;
const kept = new Map();
const unlike = new Map();
for (const engine of ['firefox', 'js102', 'jsc', 'chromium', 'node']) {
  const pages = SEEN[engine];
  const count = { texts: 0, lines: 0, frames: 0, compared: 0, unlike: 0 };
  for (const [page, texts] of Object.entries(pages)) {
    if (page.endsWith(' sites')) continue;
    texts.forEach(({ name, stack, title, top }, index) => {
      if (typeof stack !== 'string') return;
      count.texts += 1;
      const isV8 = Boolean(pages[`${page} sites`]);
      const sites = pages[`${page} sites`]?.[index].stack;
      const lines = stack.replace(/\n$/, '').split('\n');
      // V8 prints the title first, and then a line of each frame; the others say the place of the first frame.
      const first = isV8 && stack.startsWith(title) ? title.split('\n').length : 0;
      lines.forEach((line, at) => {
        count.lines += 1;
        const frame = frameOf(line);
        count.frames += frame ? 1 : 0;
        const truth = isV8 ? Array.isArray(sites) && sites.length === lines.length - first && sites[at - first] : at === 0 && top[1] && top;
        if (truth) {
          count.compared += 1;
          const url = truth[0] && truth[0].replace('.html?sites', '.html').replace(/blob:.*/, 'blob:').replace(/^(data:.*)asSites%20%3D%20true/, '$1asSites%20%3D%20false');
          const got = frame && frame.url.replace(/blob:.*/, 'blob:');
          if (frame ? got !== url || Number(frame.line) !== truth[1] || Number(frame.column) !== truth[2] : url && truth[1]) {
            count.unlike += 1;
            const key = `${FAMILY[engine]} ${formOf(line)}`;
            if (!unlike.has(key)) unlike.set(key, `${engine}, ${name}: ${JSON.stringify(line)} is ${truth.slice(0, 3).join(':')}`);
          }
        }
        const urls = page === 'places' && name === 'a place' && frame && !/^[ ]*at f \(|^f@/.test(line) ? line.replaceAll(frame.url, frame.url.replace(/^.*( line \d+ > \w+)/, 'U$1').replace(/^.*(, <anonymous>)$/, 'E$1').replace(/^\S+$/, 'U')) : line;
        const key = `${FAMILY[engine]} ${formOf(urls)}`;
        if (line && line.length <= LONGEST && !/[|␍␉]/.test(line) && !kept.has(key)) kept.set(key, `${engine}|${line.replace(/\r/g, '␍').replace(/\t/g, '␉')}\n`);
      });
    });
  }
  console.log(engine, JSON.stringify(count));
}
for (const text of unlike.values()) console.log(text);
const rows = [...kept.values()].filter((row) => !/^(node|chromium)\|(?! *at )(?!.*\bf@http)(?!h\b)/.test(row));
fs.writeFileSync(path.join(__dirname, 'lines.txt'), rows.join(''));
console.log(rows.length, 'lines chosen');
