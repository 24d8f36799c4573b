// The line at the bottom: what is pointed at, or else what is chosen, and where it comes from.
import { elementOf, isolated } from './elements.js';
import { held } from './held.js';
import { lineOf } from './map.js';
import { alike } from './segments.js';
import { isIgnored, resolvedOf, sourceOf } from './sources.js';
import { state } from './state.js';
import { visible } from './units.js';
export { WELCOME, answerOf, report };

// How much of a line is read aloud, before a place in it and behind it.
const AROUND = 60;
const WELCOME = 'Point at either text. ? shows the keys.';

// What `smap lookup` says of a mapping of a bundle, in parts.
function partsOf(index, bundle = held()) {
  const { map, record } = bundle;
  const source = index < 0 ? -1 : map.source[index];
  if (source < 0) return { place: index < 0 ? 'none' : 'unmapped' };
  return {
    path: resolvedOf(source, bundle),
    place: `:${map.originalLine[index] + 1}:${map.originalColumn[index] + 1}`,
    name: map.name[index] < 0 ? '' : ` name ${record.names[map.name[index]]}`,
    mark: isIgnored(source, bundle) ? ' ignored' : '',
  };
}

function answerOf(index, bundle) {
  return Object.values(partsOf(index, bundle)).join('');
}

// Each part has a width of its own: a long path is cut, and not what stands behind it.
function showAnswer(parts) {
  const shown = Object.entries(parts).filter(([, text]) => text);
  const answer = elementOf('answer');
  answer.replaceChildren(...shown.map(([part, text]) => isolated(part, visible(text))));
  answer.title = answer.textContent;
}

// The line of a mapping's original, around its place. The texts are drawn, so who does not see them hears it.
function lineAround(index) {
  const { map } = held();
  const source = index < 0 ? -1 : map.source[index];
  const text = source < 0 ? null : sourceOf(source).text;
  const line = source < 0 ? 0 : map.originalLine[index];
  if (!text || line >= text.lines.count) return '';
  const at = text.lines.starts[line] + Math.min(map.originalColumn[index], text.lengthOf(line));
  const seen = text.text.slice(Math.max(text.lines.starts[line], at - AROUND), Math.min(text.lines.ends[line], at + AROUND));
  return seen.trim();
}

// Which of several places it is that have one original.
function showAlike(index) {
  const { order, from, count } = alike(index);
  elementOf('alike').hidden = count < 2;
  elementOf('alike-count').textContent = count < 2 ? '' : `place ${order.indexOf(index, from) - from + 1} of ${count}`;
}

function report() {
  const { chosen, pointed, asked } = state;
  const isText = !elementOf('texts').hidden;
  const isPointed = pointed >= 0;
  const index = isPointed ? pointed : chosen;
  const { map } = held();
  let at = null;
  if (isText && isPointed) at = { line: lineOf(map, index), column: map.column[index] };
  else if (isText && asked) at = asked;
  elementOf('asked').textContent = at ? `${at.line + 1}:${at.column + 1}` : '';
  elementOf('arrow').textContent = at ? '→' : '';
  elementOf('copy-place').hidden = !isText || !asked;
  showAlike(isText && !isPointed ? index : -1);
  showAnswer(at ? partsOf(index) : {});
  elementOf('line').textContent = at && !isPointed ? visible(lineAround(index)) : '';
  const start = isText ? WELCOME : 'Click an area or a folder to open it. ? shows the keys.';
  const note = elementOf('note');
  note.textContent = at ? (isPointed ? '' : asked.note) : start;
  note.title = note.textContent;
}
