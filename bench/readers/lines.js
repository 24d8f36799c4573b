// Standard input, answered line by line.
'use strict';

const fs = require('fs');

// So much is written at once.
const MOST_PENDING = 65536;

// Writes what each line becomes; a last one that no LF ends stays without one.
function answerLines(answer) {
  const text = fs.readFileSync(0, 'utf8');
  let pending = '';
  for (let begin = 0; begin < text.length; ) {
    const end = text.indexOf('\n', begin);
    pending += end < 0 ? answer(text.slice(begin)) : `${answer(text.slice(begin, end))}\n`;
    if (pending.length >= MOST_PENDING) {
      fs.writeSync(1, pending);
      pending = '';
    }
    begin = end < 0 ? text.length : end + 1;
  }
  fs.writeSync(1, pending);
}

module.exports = { answerLines };
