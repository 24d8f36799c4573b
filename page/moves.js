// The ways through the map: to a place that is written, to a source, from mapping to mapping, and from view to view.
import { bundleNamed, isNamed } from './bundles.js';
import { ask, choose, leavePreview, letGo, redraw } from './choose.js';
import { elementOf } from './elements.js';
import { bundles, held, turnTo } from './held.js';
import { mappingAt } from './map.js';
import { fileOf, placeIn } from './places.js';
import { report } from './report.js';
import { alike } from './segments.js';
import { many, sourceOf } from './sources.js';
import { showBundle } from './show.js';
import { forget, state } from './state.js';
import { visible } from './units.js';
import { areas, openSource, panes } from './views.js';
export { drawView, go, openFromList, see, step, stepAlike, turn, turnOn, wrap };

// Shows a bundle: both panes the first place of its largest source.
function turn({ index }) {
  turnTo(index);
  forget();
  showBundle();
  const [largest] = held().ranked;
  if (largest !== undefined) openFromList(largest);
  report();
}

// Shows the next bundle, and the first one after the last.
function turnOn() {
  if (bundles.length > 1) turn(bundles[(held().index + 1) % bundles.length]);
}

// To the place of the generated text that a text names.
function go(text) {
  const place = placeIn(text, isNamed);
  elementOf('place').setAttribute('aria-invalid', String(!place));
  if (!place) {
    letGo();
    elementOf('note').textContent = 'That names no place: write LINE:COLUMN, or paste a line of a trace.';
    return;
  }
  const bundle = bundleNamed(place.url);
  if (bundle && bundle !== held()) turn(bundle);
  see('text');
  leavePreview();
  state.pointed = -1;
  const { map, generated } = held();
  const [line, column] = [place.line - 1, place.column - 1];
  const index = mappingAt(map, line, column);
  ask(line, column, noteOn(line, column, index, place.url));
  if (line < generated.lines.count) panes.generated.reveal(line, Math.min(column, generated.lengthOf(line)));
  choose(index, { in: panes.original });
}

// What is odd of a place from 0, if something is.
function noteOn(line, column, index, url) {
  const { generated, name } = held();
  if (line >= generated.lines.count) return `the file has ${many(generated.lines.count, 'line', 'lines')}`;
  const length = generated.lengthOf(line);
  if (column > length) return `line ${line + 1} has ${many(length, 'column', 'columns')}`;
  if (index < 0) return 'no mapping stands on that line at or before that column';
  if (!url || isNamed(url)) return '';
  return `the frame names ${visible(fileOf(url) || url)}, and this is ${visible(name)}`;
}

// Opens a source at its first place that the generated text has, unless it is open.
function openFromList(index) {
  see('text');
  state.preview = null;
  state.pointed = -1;
  openSource(index);
  const { map } = held();
  const { order } = sourceOf(index);
  if (order.length > 0 && (state.chosen < 0 || map.source[state.chosen] !== index)) {
    let first = order[0];
    for (const i of order) first = Math.min(first, i);
    choose(first);
  } else redraw();
}

// To the next mapping, or the one before, in the order of a pane.
function step(by) {
  const isOriginal = document.activeElement === panes.original.scroller;
  see('text');
  leavePreview();
  state.pointed = -1;
  const { map } = held();
  const { asked, chosen, open } = state;
  if (isOriginal && open >= 0) {
    const { order } = sourceOf(open);
    if (order.length === 0) return;
    const at = order.indexOf(chosen);
    const first = by > 0 ? 0 : order.length - 1;
    choose(order[at < 0 ? first : Math.max(0, Math.min(at + by, order.length - 1))]);
    return;
  }
  if (map.count === 0) return;
  let next = chosen >= 0 ? chosen + by : by > 0 ? 0 : map.count - 1;
  if (chosen < 0 && asked && asked.line < map.lines) next = by > 0 ? map.first[asked.line] : map.first[asked.line] - 1;
  choose(Math.max(0, Math.min(next, map.count - 1)));
}

// To the next place, or the one before, of the same original.
function stepAlike(by) {
  const { order, from, count } = alike(state.chosen);
  if (count < 2) return;
  see('text');
  leavePreview();
  state.pointed = -1;
  choose(order[from + ((order.indexOf(state.chosen, from) - from + by + count) % count)]);
}

// Wraps the lines of a pane, or no longer.
function wrap(name) {
  see('text');
  const pane = panes[name];
  pane.wrap(!pane.wraps);
  elementOf(name).querySelector('.wrap').setAttribute('aria-pressed', String(pane.wraps));
}

function see(view) {
  const isText = view === 'text';
  if (isText !== elementOf('texts').hidden) return;
  elementOf('texts').hidden = !isText;
  elementOf('areas-view').hidden = isText;
  elementOf('see-text').setAttribute('aria-pressed', String(isText));
  elementOf('see-areas').setAttribute('aria-pressed', String(!isText));
  drawView();
  report();
}

// The view that is seen, measured anew. What is hidden has no size, and is measured when it is seen again.
function drawView() {
  if (elementOf('texts').hidden) areas.draw();
  else for (const pane of Object.values(panes)) pane.resize();
}
