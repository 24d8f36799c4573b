#!/usr/bin/env node
// Asks the rules for the names of functions in builds of real sources, and compares them with the sources. README.md beside this
// file says how.
//
//   node compare.js [--show] [PART OF A PATH...]
'use strict';

const { decode } = require('@jridgewell/sourcemap-codec');
const { builds, FILES, MODULES } = require('./builds.js');
const { functionsOf } = require('./functions.js');
const { RULES, THE_RULE, Text } = require('./rule.js');

const MOST_PLACES = 4;

// Where each line begins.
function starts(text) {
  const found = [0];
  for (let i = 0; i < text.length; i += 1) {
    const c = text[i];
    if (c === '\n' || c === '\u2028' || c === '\u2029' || (c === '\r' && text[i + 1] !== '\n')) found.push(i + 1);
  }
  return found;
}

function lastAtOrBefore(list, value, of) {
  let low = 0;
  let high = list.length;
  while (low < high) {
    const middle = (low + high) >> 1;
    if (of(list[middle]) <= value) low = middle + 1;
    else high = middle;
  }
  return low - 1;
}

// The mappings of a text as places in it, in order.
function mappingsOf(map, lines) {
  const all = [];
  decode(map.mappings).forEach((line, number) => {
    for (const [column, source, originalLine, originalColumn, name] of line) {
      all.push({ at: lines[number] + column, source, line: originalLine, column: originalColumn, name: name === undefined ? undefined : map.names[name] });
    }
  });
  return all;
}

class Build {
  constructor({ name, text, map }) {
    this.name = name;
    this.text = text.replace(/^\uFEFF/, '');
    this.lines = starts(this.text);
    this.mappings = mappingsOf(map, this.lines);
    this.exact = new Map();
    for (const mapping of this.mappings) this.exact.set(mapping.at, mapping);
    this.sources = (map.sourcesContent ?? []).map((content) => ({ content }));
    const rules = new Text(this.text);
    this.entries = new Map();
    for (const entry of rules.all()) {
      const mapping = this.exact.get(entry.start);
      entry.given = entry.kind === 'declaration' && mapping?.source !== undefined ? mapping.name ?? entry.name : undefined;
      if (!this.entries.has(entry.name)) this.entries.set(entry.name, []);
      this.entries.get(entry.name).push(entry);
    }
  }

  source(i) {
    const source = this.sources[i];
    if (source === undefined || source.content == null) return undefined;
    if (source.functions === undefined) {
      source.functions = [];
      source.byStart = new Map();
      source.lines = starts(source.content);
      try {
        source.functions = functionsOf(source.content);
      } catch (error) {
        source.fault = error.message;
      }
      for (const one of source.functions) {
        const put = (at) => { if (!source.byStart.has(at)) source.byStart.set(at, one); };
        put(one.start);
        put(one.node.start);
        if (one.node.id != null) put(one.node.id.start);
        if (one.parent.type.startsWith('Export')) put(one.parent.start);
      }
      source.sorted = [...source.functions].sort((a, b) => a.start - b.start || b.end - a.end);
    }
    return source;
  }

  originalAt(mapping) {
    if (mapping === undefined || mapping.source === undefined) return undefined;
    const source = this.source(mapping.source);
    if (source === undefined) return undefined;
    return { source, at: source.lines[mapping.line] + mapping.column };
  }

  // The innermost function of the sources around what a place leads to.
  around(at) {
    const i = lastAtOrBefore(this.mappings, at, (mapping) => mapping.at);
    const original = this.originalAt(this.mappings[i]);
    if (original === undefined) return undefined;
    let best;
    for (let k = lastAtOrBefore(original.source.sorted, original.at, (one) => one.start); k >= 0; k -= 1) {
      const one = original.source.sorted[k];
      if (one.end > original.at) { best = one; break; }
    }
    return best;
  }

  // The function of the sources that became this one.
  originOf(one) {
    for (const start of new Set([one.node.start, one.start, one.node.id?.start])) {
      const original = this.originalAt(this.exact.get(start));
      const found = original?.source.byStart.get(original.at);
      if (found !== undefined) return found;
    }
    const around = new Set(one.places.map((at) => this.around(at)));
    return around.size === 1 ? [...around][0] : undefined;
  }
}

function spread(list, most) {
  if (list.length <= most) return list;
  const picked = new Set();
  for (let i = 0; i < most; i += 1) picked.add(list[Math.floor((i * (list.length - 1)) / (most - 1))]);
  return [...picked];
}

// Names that no function has in what is written: TypeScript's of a class, and Babel's of its own functions, which its map leads
// to some line.
const HELPERS =
  'assertThisInitialized|classCallCheck|createClass|createForOfIteratorHelper|createSuper|defineProperties|get|getPrototypeOf|' +
  'inherits|isNativeReflectConstruct|objectWithoutProperties|objectWithoutPropertiesLoose|possibleConstructorReturn|' +
  'setPrototypeOf|superPropBase|toArray|typeof';
const TOOLS = new RegExp(`^(class_\\d+|_class\\d*|_callee\\d*|_(${HELPERS}))$`);

// What an answer is, beside the name that was written.
function judged(build, one, origin, entry) {
  const answer = entry?.given;
  if (one.how === 'property') return answer === undefined || answer === one.name ? 'stays' : 'wrong property';
  if (answer === undefined) return origin.name === one.name ? 'same' : 'none';
  if (answer === origin.name) return 'right';
  const isOwn = entry.start === one.target || entry.start === one.node.id?.start;
  if (isOwn && one.how === 'variable') return 'variable';
  if (origin.variable !== undefined && answer === origin.variable) return 'variable';
  // the constructor that a tool has given a class that is written without one, in the function that was found
  const source = build.originalAt(build.exact.get(entry.start))?.source;
  const isClass = ({ start, end, name }) => name === answer && origin.start <= start && end <= origin.end;
  if (isOwn && source?.functions.classes.some(isClass)) return 'right';
  const isWritten = [...(source?.byStart.values() ?? [])].some(({ name }) => name === answer);
  return TOOLS.test(answer) && !isWritten ? 'tool' : 'wrong';
}

// What becomes of each place of a build, by rule.
function countsOf(build, all, tell) {
  const counts = { functions: 0, unmatched: 0, rules: {} };
  for (const one of all) {
    if (one.name === undefined || one.how === 'default' || one.places.length === 0) continue;
    const origin = build.originOf(one);
    if (origin === undefined) {
      counts.unmatched += 1;
      continue;
    }
    counts.functions += 1;
    const entries = build.entries.get(one.name) ?? [];
    for (const at of spread([...new Set(one.places)], MOST_PLACES)) {
      const before = entries.slice(0, lastAtOrBefore(entries, at, (entry) => entry.start) + 1);
      for (const [rule, decide] of Object.entries(RULES)) {
        const entry = decide(before, at);
        const kind = judged(build, one, origin, entry);
        counts.rules[rule] ??= {};
        counts.rules[rule][kind] = (counts.rules[rule][kind] ?? 0) + 1;
        if (kind.startsWith('wrong')) tell(`${rule}: ${kind}: ${one.name} at ${at} is ${origin.name}, not ${entry.given}`);
      }
    }
  }
  return counts;
}

function add(totals, counts) {
  totals.builds += 1;
  totals.functions += counts.functions;
  totals.unmatched += counts.unmatched;
  for (const [rule, kinds] of Object.entries(counts.rules)) {
    totals.rules[rule] ??= {};
    for (const [kind, n] of Object.entries(kinds)) totals.rules[rule][kind] = (totals.rules[rule][kind] ?? 0) + n;
  }
}

async function main() {
  const words = process.argv.slice(2);
  const shows = words.includes('--show');
  const parts = words.filter((word) => !word.startsWith('--'));
  const chosen = (list) => (parts.length === 0 ? list : list.filter((file) => parts.some((part) => file.includes(part))));
  const totals = { builds: 0, functions: 0, unmatched: 0, rules: {} };
  for await (const made of builds(chosen(FILES), chosen(MODULES))) {
    if (made.left === undefined) {
      try {
        const build = new Build(made);
        add(totals, countsOf(build, functionsOf(build.text), (line) => shows && console.log(`${made.name}: ${line}`)));
      } catch (error) {
        made.left = error.message;
      }
    }
    console.error(made.left === undefined ? made.name : `left: ${made.name}: ${made.left}`);
  }
  console.log(`${totals.builds} builds, ${totals.functions} functions, ${totals.unmatched} of no known origin`);
  for (const [rule, kinds] of Object.entries(totals.rules)) console.log(`${rule}: ${JSON.stringify(kinds)}`);
  const own = totals.rules[THE_RULE] ?? {};
  process.exitCode = own.right > 0 && own.wrong === undefined && own['wrong property'] === undefined ? 0 : 1;
}

main();
