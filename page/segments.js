// What stands where in the two texts: the segments of the generated one, and those of the source that is open.
import { held } from './held.js';
import { firstWhere } from './search.js';
import { rankOf, sourceOf } from './sources.js';
import { isSameOrigin, state } from './state.js';
export { alike, originalAt, visitGenerated, visitOriginal };

function visitGenerated(line, begin, end, visit) {
  const { generated, map } = held();
  if (line >= map.lines) return;
  const last = map.first[line + 1];
  let i = firstWhere(map.first[line], last, (at) => map.column[at] > begin);
  i = Math.max(map.first[line], i - 1);
  const length = generated.lengthOf(line);
  for (; i < last && map.column[i] <= end; i += 1) {
    const to = i + 1 < last ? Math.min(map.column[i + 1], length) : length;
    if (to > map.column[i]) visit(map.column[i], to, i, map.source[i] < 0 ? -1 : rankOf(map.source[i]));
  }
}

function visitOriginal(line, begin, end, visit) {
  if (state.open < 0) return;
  const { map } = held();
  const { order, text } = sourceOf(state.open);
  const length = text.lengthOf(line);
  let i = placeInOrder(order, line, begin);
  if (i < 0) i = firstWhere(0, order.length, (at) => map.originalLine[order[at]] >= line);
  while (i < order.length && map.originalLine[order[i]] === line && map.originalColumn[order[i]] <= end) {
    const column = map.originalColumn[order[i]];
    let next = i + 1;
    while (next < order.length && isSameOrigin(order[next], order[i])) next += 1;
    const isOn = next < order.length && map.originalLine[order[next]] === line;
    const to = isOn ? Math.min(map.originalColumn[order[next]], length) : length;
    if (to > column) visit(column, to, litAmong(order, i, next), rankOf(state.open));
    i = next;
  }
}

// Of the mappings of one place the one that is chosen or pointed at, or else the first.
function litAmong(order, from, to) {
  for (let i = from; i < Math.min(to, from + 1000); i += 1) {
    if (order[i] === state.pointed || order[i] === state.chosen) return order[i];
  }
  return order[from];
}

// Where in the order of an open source the mappings begin that stand at or before a place on its line, each with those of the
// same place behind it; -1 where none does.
function placeInOrder(order, line, column) {
  const { map } = held();
  const after = firstWhere(
    0,
    order.length,
    (i) => map.originalLine[order[i]] > line || (map.originalLine[order[i]] === line && map.originalColumn[order[i]] > column),
  );
  return after > 0 && map.originalLine[order[after - 1]] === line ? beginOf(order, after - 1) : -1;
}

function beginOf(order, at) {
  return firstWhere(0, at, (i) => isSameOrigin(order[i], order[at]));
}

// The mapping of a place of the open source. Where several have it, the one behind `last`, and the first again after the last one.
function originalAt(place, last = -1) {
  if (!place || state.open < 0) return -1;
  const { order } = sourceOf(state.open);
  const at = placeInOrder(order, place.line, place.column);
  if (at < 0) return -1;
  if (last >= 0 && isSameOrigin(order[at], last)) {
    for (let i = at; i + 1 < order.length && isSameOrigin(order[i + 1], last); i += 1) {
      if (order[i] === last) return order[i + 1];
    }
  }
  return order[at];
}

// The mappings of the original place of a mapping: where they begin in the order of their source, and how many there are.
function alike(index) {
  const { map } = held();
  if (index < 0 || map.source[index] < 0) return { order: [], from: 0, count: 0 };
  const { order } = sourceOf(map.source[index]);
  const from = placeInOrder(order, map.originalLine[index], map.originalColumn[index]);
  let count = 1;
  while (from + count < order.length && isSameOrigin(order[from + count], index)) count += 1;
  return { order, from, count };
}
