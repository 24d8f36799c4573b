// Pointing at a mapping, choosing it, and letting it go, in both texts.
import { held } from './held.js';
import { lineOf, mappingAt } from './map.js';
import { report } from './report.js';
import { originalAt } from './segments.js';
import { state } from './state.js';
import { openSource, panes } from './views.js';
export { ask, choose, leavePreview, letGo, listenToPanes, redraw };

function pointAt(index, other) {
  const { map } = held();
  if (index === state.pointed) return;
  state.pointed = index;
  const wanted = index >= 0 ? map.source[index] : -1;
  if (other === panes.original) {
    if (wanted >= 0) {
      if (!state.preview) state.preview = { open: state.open, seen: panes.original.seen() };
      openSource(wanted);
      panes.original.reveal(map.originalLine[index], map.originalColumn[index]);
    } else if (index < 0) leavePreview();
  }
  hint(other === panes.generated ? index : -1);
  redraw();
  report();
}

// Back to the source that was open before something was pointed at, and to where it was.
function leavePreview() {
  if (!state.preview) return;
  const { open, seen } = state.preview;
  state.preview = null;
  openSource(open);
  panes.original.seeAgain(seen);
}

// Says where the counterpart is, where it isn't in view.
function hint(index) {
  const { map } = held();
  const { hint: element, text } = panes.generated;
  element.hidden = true;
  if (index < 0) return;
  const line = lineOf(map, index);
  const isSeen = line < text.lines.count && panes.generated.pointAt(line, map.column[index]);
  if (isSeen) return;
  element.textContent = `at ${line + 1}:${map.column[index] + 1}; click to go there`;
  element.hidden = false;
}

// Chooses a mapping. Its places are brought into view in both panes, or in one of them, where the other was clicked.
function choose(index, { in: other } = {}) {
  const { map } = held();
  state.chosen = index;
  state.preview = null;
  const origin = index >= 0 && map.source[index] >= 0;
  if (!origin) panes.original.letGo();
  if (origin && other !== panes.generated) {
    openSource(map.source[index]);
    panes.original.caret = { line: map.originalLine[index], column: map.originalColumn[index] };
    panes.original.reveal(map.originalLine[index], map.originalColumn[index]);
  }
  if (other !== panes.original && index >= 0) {
    const line = lineOf(map, index);
    ask(line, map.column[index]);
    panes.generated.reveal(line, map.column[index]);
    if (origin) panes.original.caret = { line: map.originalLine[index], column: map.originalColumn[index] };
  }
  panes.generated.hint.hidden = true;
  redraw();
  report();
}

// Sets the place of the generated text that is asked for, from 0.
function ask(line, column, note = '') {
  state.asked = { line, column, note };
  panes.generated.caret = { line, column };
}

function letGo() {
  leavePreview();
  state.chosen = -1;
  state.pointed = -1;
  state.asked = null;
  for (const pane of Object.values(panes)) pane.letGo();
  redraw();
  report();
}

function redraw() {
  panes.generated.later();
  panes.original.later();
}

function listenToPanes() {
  panes.generated.listen({
    point: (place) => pointAt(place ? mappingAt(held().map, place.line, place.column) : -1, panes.original),
    choose: (place) => {
      leavePreview();
      ask(place.line, place.column);
      choose(mappingAt(held().map, place.line, place.column), { in: panes.original });
    },
  });
  panes.original.listen({
    point: (place) => pointAt(originalAt(place), panes.generated),
    choose: (place) => {
      const index = originalAt(place, state.chosen);
      if (index >= 0) choose(index, { in: panes.generated });
    },
  });
}
