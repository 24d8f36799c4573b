// node repeat-text.js FILE BYTES WITH WITHOUT TEXT: writes a content that is FILE many times over, at most BYTES bytes,
// to TEXT, and two maps whose one mapping is of the content's last line: WITH holds the content, WITHOUT does not.
// Prints how many lines the content has, the line of that place, and what its line shows.
'use strict';

const fs = require('fs');

const [file, bytes, withContent, without, textFile] = process.argv.slice(2);
const piece = fs.readFileSync(file, 'utf8');
const size = Buffer.byteLength(piece);
const content = `${piece.repeat(Math.max(Math.floor(Number(bytes) / size), 1))}// the end`;
const lines = content.split(/\r\n|[\n\r\u2028\u2029]/);

const DIGITS = 'ABCDEFGHIJKLMNOPQRSTUVWXYZabcdefghijklmnopqrstuvwxyz0123456789+/';

// A number that is not negative, in Base64 VLQ.
function spelled(number) {
  let rest = number * 2;
  let digits = '';
  while (rest >= 32) {
    digits += DIGITS[32 + (rest % 32)];
    rest = Math.floor(rest / 32);
  }
  return digits + DIGITS[rest];
}

const map = { version: 3, sources: ['a.js'], mappings: `AA${spelled(lines.length - 1)}A` };
fs.writeFileSync(withContent, JSON.stringify({ ...map, sourcesContent: [content] }));
fs.writeFileSync(without, JSON.stringify(map));
fs.writeFileSync(textFile, content);
console.log(`${Buffer.byteLength(content)} bytes in ${lines.length} lines`);
console.log(`a.js:${lines.length}:1`);
console.log(lines[lines.length - 1]);
