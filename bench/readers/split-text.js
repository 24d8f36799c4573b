// node split-text.js FILE: splits a text into lines, and prints the microseconds that this took and how many there are.
'use strict';

const fs = require('fs');

const bytes = fs.readFileSync(process.argv[2]);
const text = bytes.toString('utf8');
const begin = process.hrtime.bigint();
const lines = text.split(/\r\n|[\n\r\u2028\u2029]/);
const took = (process.hrtime.bigint() - begin) / 1000n;
console.log(`${took} ${bytes.length} bytes in ${lines.length} lines`);
