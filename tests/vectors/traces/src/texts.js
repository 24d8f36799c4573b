import { inspect } from 'node:util';
import { fail } from './fail.js';

function caught(body) {
  try {
    return body();
  } catch (error) {
    return error;
  }
}

const plain = caught(() => fail('plain'));

function wrap(text, cause) {
  throw new TypeError(text, { cause });
}

const wrapped = caught(() => wrap('wrapped', plain));
console.log(inspect(caught(() => wrap('twice', wrapped)), { depth: 5 }));
console.log(inspect(new AggregateError([plain, wrapped], 'both')));
console.log(inspect({ deep: { deeper: [plain] } }));
console.log(caught(() => fail('three lines\n\n  of a message')).stack);
console.log(caught(() => fail('lines that end in CR LF\r\nas here\r\n')).stack);
console.log(caught(() => fail(`a trace in a message: ${plain.stack}`)).stack);
console.log(caught(() => fail('at f (https://example.test/calls.js?v=3:1:2)\n    at g (x:1:2)')).stack);
console.trace('console.trace');
console.log(caught(() => JSON.parse('{"a":')).stack);
console.log(caught(() => null.field).stack);
console.log(caught(() => new Array(-1)).stack.replaceAll('\n', '\r\n'));
console.log(caught(() => decodeURIComponent('%')).stack.replaceAll('    at', '\t at'));
console.error(`[2026-01-02T03:04:05Z] ${plain.stack}`);
const holder = {};
Error.captureStackTrace(holder);
console.log(holder.stack);
console.log(JSON.stringify({ stack: plain.stack }));
process.stdout.write(`${plain.stack}`);
