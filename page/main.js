// The start of the page, what its field, buttons and keys do, and what a test may ask.
import { letGo, listenToPanes } from './choose.js';
import { readColours } from './colours.js';
import { copyLine, copyPlace, listenToCopying } from './copying.js';
import { elementOf } from './elements.js';
import { listenToFrames, showGiven } from './frames.js';
import { bundles, held } from './held.js';
import { lineOf, mappingAt } from './map.js';
import { listenToMisfits } from './misfits.js';
import { drawView, go, openFromList, see, step, stepAlike, turn, turnOn, wrap } from './moves.js';
import { WELCOME, answerOf, report } from './report.js';
import { showChoice } from './show.js';
import { contentOf } from './sources.js';
import { state } from './state.js';
import { areas, finders, list, paintSwatch, panes } from './views.js';

function start() {
  readColours();
  showChoice();
  turn(held());
  if (state.asked) state.asked.note = WELCOME;
  report();
}

function redrawAll() {
  drawView();
  list.draw();
  paintSwatch();
}

// The pane with the focus, or else the generated one.
function paneInUse() {
  return document.activeElement === panes.original.scroller ? 'original' : 'generated';
}

// The field for the search in that pane.
function find() {
  const { field } = finders[paneInUse()];
  see('text');
  field.select();
}

function listenToKeys() {
  const keys = {
    n: () => step(1),
    p: () => step(-1),
    o: () => stepAlike(1),
    O: () => stepAlike(-1),
    b: turnOn,
    g: () => elementOf('place').select(),
    '/': find,
    w: () => wrap(paneInUse()),
    c: copyPlace,
    l: () => copyLine(paneInUse()),
    t: () => see('text'),
    a: () => see('areas'),
    '?': () => elementOf('keys').showModal(),
    Escape: letGo,
  };
  document.addEventListener('keydown', (event) => {
    if (event.altKey || event.ctrlKey || event.metaKey || elementOf('keys').open) return;
    if (event.target instanceof HTMLInputElement) {
      if (event.key === 'Escape') panes.generated.scroller.focus();
      return;
    }
    if (event.target instanceof HTMLSelectElement) return;
    const act = keys[event.key];
    if (!act) return;
    event.preventDefault();
    act();
  });
}

function listen() {
  listenToPanes();
  listenToKeys();
  listenToFrames();
  listenToCopying();
  listenToMisfits(go);
  for (const finder of Object.values(finders)) finder.listen();
  list.listen(openFromList);
  areas.listen(openFromList);
  elementOf('go').addEventListener('submit', (event) => {
    event.preventDefault();
    go(elementOf('place').value);
  });
  elementOf('filter').addEventListener('input', () => list.filter(elementOf('filter').value));
  elementOf('see-text').addEventListener('click', () => see('text'));
  elementOf('see-areas').addEventListener('click', () => see('areas'));
  elementOf('bundles').addEventListener('change', () => turn(bundles[Number(elementOf('bundles').value)]));
  elementOf('alike-before').addEventListener('click', () => stepAlike(-1));
  elementOf('alike-after').addEventListener('click', () => stepAlike(1));
  elementOf('help').addEventListener('click', () => elementOf('keys').showModal());
  for (const name of Object.keys(panes)) {
    elementOf(name).querySelector('.wrap').addEventListener('click', () => wrap(name));
  }
  new ResizeObserver(redrawAll).observe(document.querySelector('main'));
  matchMedia('(prefers-color-scheme: dark)').addEventListener('change', () => {
    readColours();
    redrawAll();
  });
  window.addEventListener('hashchange', goBehindHash);
}

// To the place that the address has behind `#`: as it stands there where it has a wrong escape.
function goBehindHash() {
  let place = location.hash.slice(1);
  try {
    place = decodeURIComponent(place);
  } catch {
    // It stays as it is written.
  }
  go(place);
}

start();
listen();
const hasPlace = location.hash.length > 1;
showGiven(hasPlace);
if (hasPlace) goBehindHash();
for (const pane of Object.values(panes)) pane.draw();
document.documentElement.dataset.ready = performance.now().toFixed(1);

// What a test may ask. Nothing of it changes the page.
const placed = (index) => {
  if (index < 0) return null;
  const { map } = held();
  return { line: lineOf(map, index) + 1, column: map.column[index] + 1, answer: answerOf(index) };
};
Object.defineProperty(window, 'smapPage', {
  value: Object.freeze({
    get counts() {
      const { owned, generated, map, ranked } = held();
      return { bytes: owned.total, lines: generated.lines.count, mappings: map.count, sources: ranked.length };
    },
    bytes: () => ({ sources: [...held().owned.sources], unmapped: held().owned.unmapped }),
    lookUp: (line, column) => answerOf(mappingAt(held().map, line - 1, column - 1)),
    bundle: () => held().index,
    chosen: () => placed(state.chosen),
    pointed: () => placed(state.pointed),
    open: () => state.open,
    text: (source) => (source < 0 ? held().generated.text : contentOf(source)),
    pointOf: (pane, line, column) => panes[pane].pointAt(line - 1, column - 1),
    scrolled: (pane) => ({ left: panes[pane].left, top: panes[pane].top }),
  }),
});
