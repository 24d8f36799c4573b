// What the page says at its top where the map does not fit the text.
import { elementOf } from './elements.js';
import { held } from './held.js';
import { many } from './sources.js';
export { listenToMisfits, showMisfits };

// The place of the first mapping that does not fit, past the text or inside a word.
function firstPlace({ firstPast, firstInside }) {
  if (!firstPast || !firstInside) return firstPast || firstInside;
  return (firstPast.line - firstInside.line || firstPast.column - firstInside.column) < 0 ? firstPast : firstInside;
}

const placeToGo = () => {
  const { line, column } = firstPlace(held().fit);
  return `${line}:${column}`;
};

function showMisfits() {
  const { fit } = held();
  elementOf('misfits').hidden = fit.fits;
  if (fit.fits) return;
  elementOf('misfits-count').textContent = `The map does not fit this text, and may be that of another file or build: of ${many(fit.mappings, 'mapping', 'mappings')}`
    + ` ${many(fit.past, 'stands', 'stand')} past the text, and ${many(fit.inside, 'stands', 'stand')} inside a word.`;
  elementOf('misfits-first').textContent = `First at ${placeToGo()}`;
}

// A click goes to the first.
function listenToMisfits(go) {
  elementOf('misfits-first').addEventListener('click', () => {
    elementOf('place').value = placeToGo();
    go(placeToGo());
  });
}
