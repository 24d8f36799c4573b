// The views of the page: the two panes, the list and the areas; and the source that is open in its pane.
import { Areas } from './areas.js';
import { colourOf } from './colours.js';
import { added, elementOf, isolated } from './elements.js';
import { Finder } from './find.js';
import { List } from './list.js';
import { Pane } from './pane.js';
import { visitGenerated, visitOriginal } from './segments.js';
import { isIgnored, many, nameOf, rankOf, resolvedOf, sourceOf } from './sources.js';
import { isLit, state } from './state.js';
import { visible } from './units.js';
export { areas, finders, list, openSource, paintSwatch, panes, showOpen };

const panes = {
  generated: new Pane(elementOf('generated'), { wraps: true, segments: visitGenerated, isLit }),
  original: new Pane(elementOf('original'), { wraps: false, segments: visitOriginal, isLit }),
};
const finders = {
  generated: new Finder(elementOf('generated'), panes.generated),
  original: new Finder(elementOf('original'), panes.original),
};
const list = new List(elementOf('list'));
const areas = new Areas(elementOf('areas'), elementOf('way'));

// The colour beside the name of the source that is open.
function paintSwatch() {
  const swatch = elementOf('original').querySelector('.swatch');
  swatch.hidden = state.open < 0;
  if (state.open >= 0) swatch.style.backgroundColor = colourOf(rankOf(state.open), 0.85);
}

// Puts a source into its pane, if it isn't there.
function openSource(index) {
  if (state.open === index) return;
  state.open = index;
  showOpen();
}

// Shows the source that is open, or that none is.
function showOpen() {
  const { open } = state;
  const pane = elementOf('original');
  const name = pane.querySelector('.name');
  const empty = pane.querySelector('.empty');
  name.replaceChildren();
  paintSwatch();
  if (open < 0) {
    panes.original.show(null);
    empty.textContent = 'Point at the generated text, or choose a source.';
    return;
  }
  name.append(isolated('path', visible(nameOf(open))));
  name.title = visible(resolvedOf(open));
  if (isIgnored(open)) {
    name.append(' ');
    added(name, 'em', '', 'ignored');
  }
  const { text, order } = sourceOf(open);
  const leading = many(order.length, 'mapping leads', 'mappings lead');
  empty.textContent = text ? '' : `The map holds no text of this source.\n${leading} to it; the line below says where.`;
  panes.original.show(text);
  list.mark(open);
}
