// What is copied: the chosen place and where it comes from, or the line of a pane's caret.
import { elementOf } from './elements.js';
import { report } from './report.js';
import { state } from './state.js';
import { panes } from './views.js';
export { copyLine, copyPlace, listenToCopying };

// What a button or a key asks to copy, while it does.
let wanted = null;

function copy(text, note) {
  wanted = text;
  document.execCommand('copy');
  wanted = null;
  state.asked.note = note;
  report();
}

// What is copied is seen.
const canCopy = () => state.asked && !elementOf('texts').hidden;
const chosenPlace = () => `${elementOf('asked').textContent} ${elementOf('answer').textContent}`;

function copyPlace() {
  if (canCopy()) copy(chosenPlace(), 'copied the place');
}

function copyLine(name) {
  const { caret, text } = panes[name];
  if (!canCopy() || !caret || !text || caret.line >= text.lines.count) return;
  const { starts, ends } = text.lines;
  copy(text.text.slice(starts[caret.line], ends[caret.line]), `copied line ${caret.line + 1}`);
}

function listenToCopying() {
  document.addEventListener('copy', (event) => {
    const isOwn = event.target instanceof HTMLInputElement || !canCopy() || String(getSelection());
    if (wanted === null && isOwn) return;
    event.clipboardData.setData('text/plain', wanted ?? chosenPlace());
    event.preventDefault();
  });
  elementOf('copy-place').addEventListener('click', copyPlace);
  for (const name of Object.keys(panes)) {
    elementOf(name).querySelector('.copy').addEventListener('click', () => copyLine(name));
  }
}
