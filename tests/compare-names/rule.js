'use strict';
// Rules for the names of functions, as a model: written from their words, beside the proved definitions.

const isWord = (c) => c !== undefined && /[A-Za-z0-9_$\x80-\uFFFF]/.test(c);
const isBlank = (c) => c === ' ' || c === '\t' || c === '\n' || c === '\r' || c === '\f';
const STATEMENTS = new Set(['if', 'for', 'while', 'switch', 'catch', 'with', 'function']);

// Of each `open` of a text, where its `close` stands: counted, wherever they stand.
function ends(text, open, close) {
  const stack = [];
  const found = new Map();
  for (let i = 0; i < text.length; i += 1) {
    if (text[i] === open) stack.push(i);
    else if (text[i] === close && stack.length > 0) found.set(stack.pop(), i);
  }
  return found;
}

class Text {
  constructor(text) {
    this.text = text;
    this.rounds = ends(text, '(', ')');
  }

  blanks(at) {
    while (isBlank(this.text[at])) at += 1;
    return at;
  }

  wordEnd(at) {
    while (isWord(this.text[at])) at += 1;
    return at;
  }

  // What stands behind the bracket that begins here: `=>`, `{` or anything else.
  behindBracket(at, what) {
    if (this.text[at] !== '(' || !this.rounds.has(at)) return false;
    return this.text.startsWith(what, this.blanks(this.rounds.get(at) + 1));
  }

  beginsPlainly(at) {
    const end = this.wordEnd(at);
    if (end === at) return this.behindBracket(at, '=>');
    const word = this.text.slice(at, end);
    return word === 'function' || word === 'class' || this.text.startsWith('=>', this.blanks(end));
  }

  beginsFunction(at) {
    if (this.beginsPlainly(at)) return true;
    const end = this.wordEnd(at);
    return this.text.slice(at, end) === 'async' && this.beginsPlainly(this.blanks(end));
  }

  isAssigned(at) {
    const { text } = this;
    return text[at] === '=' && text[at + 1] !== '=' && text[at + 1] !== '>' && this.beginsFunction(this.blanks(at + 1));
  }

  isKey(start, end) {
    const quoted = (this.text[end] === '"' || this.text[end] === "'") && this.text[end] === this.text[start - 1];
    const at = this.blanks(quoted ? end + 1 : end);
    return this.text[at] === ':' && this.beginsFunction(this.blanks(at + 1));
  }

  kindOf(start, end, keyword) {
    const rest = this.blanks(end);
    const dot = this.text[start - 1] === '.';
    const assigned = this.isAssigned(rest);
    if (!dot && (keyword || assigned)) return 'declaration';
    if ((dot && assigned) || this.isKey(start, end)) return 'property';
    if (!dot && !STATEMENTS.has(this.text.slice(start, end)) && this.behindBracket(rest, '{')) return 'property';
    return undefined;
  }

  // The declarations and properties, in order: each with its name, its kind, and where its body begins and ends.
  all() {
    const { text } = this;
    const found = [];
    const word = /[A-Za-z0-9_$\x80-\uFFFF]+/g;
    let keyword = '';
    let from = 0;
    for (let match = word.exec(text); match !== null; match = word.exec(text)) {
      const start = match.index;
      const end = start + match[0].length;
      const between = text.slice(from, start);
      if (!(keyword === 'function' ? /^[ \t\n\r\f*]*$/ : /^[ \t\n\r\f]*$/).test(between)) keyword = '';
      const kind = this.kindOf(start, end, keyword !== '');
      if (kind !== undefined) found.push({ name: match[0], start, end, kind, open: text.indexOf('{', end) });
      keyword = match[0] === 'function' || match[0] === 'class' ? match[0] : '';
      from = end;
    }
    this.ends(found);
    return found;
  }

  // Where the body of each ends, braces counted: at the `}` of the first `{` behind its name, or of the braces around the name.
  ends(found) {
    const { text } = this;
    const waiting = [];
    let level = 0;
    let next = 0;
    for (let i = 0; i < text.length; i += 1) {
      for (; next < found.length && found[next].start === i; next += 1) waiting.push({ entry: found[next], level });
      if (text[i] === '{') level += 1;
      if (text[i] === '}') {
        while (waiting.length > 0 && level - waiting[waiting.length - 1].level <= 1) waiting.pop().entry.until = i;
        level = Math.max(level - 1, 0);
      }
    }
    for (const { entry } of waiting) entry.until = text.length;
  }
}

// What decides of the declarations and properties of one name that begin at a place or before it: by the rule that is
// right, and by others that were tried.
const THE_RULE = 'the last, unless its body has ended';

const RULES = {
  'the last': (all) => all.at(-1),
  'the last in whose body it is, or the last': (all, at) => all.findLast((entry) => entry.open <= at && at <= entry.until) ?? all.at(-1),
  [THE_RULE]: (all, at) => (all.length > 0 && at <= all.at(-1).until ? all.at(-1) : undefined),
  'the last whose body has not ended': (all, at) => all.findLast((entry) => at <= entry.until),
};

module.exports = { RULES, THE_RULE, Text };
