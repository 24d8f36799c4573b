// What is chosen, pointed at, asked for and open. choose.js, moves.js and views.js change it, and others read it.
import { held } from './held.js';
export { forget, isLit, isSameOrigin, state };

const START = {
  // The mappings that are chosen and pointed at, and the source that is open; -1 where there is none.
  chosen: -1,
  pointed: -1,
  open: -1,
  // The source that was open before something was pointed at, and where it was seen; null where nothing is.
  preview: null,
  // The place of the generated text that is asked for, from 0, with a note on it; null where none is.
  asked: null,
};
const state = { ...START };

// As at the start.
function forget() {
  Object.assign(state, START);
}

function isSameOrigin(a, b) {
  const { source, originalLine, originalColumn } = held().map;
  const isSame = (list) => list[a] === list[b];
  return source[a] >= 0 && isSame(source) && isSame(originalLine) && isSame(originalColumn);
}

// 2 for the mapping itself, 1 for another one of the same place of a source, and 0.
function isLitBy(index, by) {
  if (by < 0) return 0;
  if (index === by) return 2;
  return isSameOrigin(index, by) ? 1 : 0;
}
const isLit = (index) => Math.max(isLitBy(index, state.chosen), isLitBy(index, state.pointed));
