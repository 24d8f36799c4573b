// The frames of a trace that is pasted into the field, or that the page was made with, as a list: each is a click.
import { bundleNamed, isNamed } from './bundles.js';
import { added, elementOf, isolated } from './elements.js';
import { given } from './held.js';
import { mappingAt } from './map.js';
import { go } from './moves.js';
import { framesIn } from './places.js';
import { answerOf } from './report.js';
import { many } from './sources.js';
import { visible } from './units.js';
export { listenToFrames, showGiven };

const MOST = 1000;

function listenToFrames() {
  elementOf('place').addEventListener('paste', (event) => {
    const frames = framesIn(event.clipboardData.getData('text'), isNamed);
    if (frames.length < 2) return;
    event.preventDefault();
    show(frames).click();
  });
  elementOf('frames-list').addEventListener('keydown', walk);
  elementOf('frames-close').addEventListener('click', () => {
    elementOf('frames').hidden = true;
    elementOf('place').focus();
  });
}

// The frames are one stop of Tab, and keys go from one to the next.
function walk(event) {
  if (event.altKey || event.ctrlKey || event.metaKey) return;
  const buttons = [...elementOf('frames-list').querySelectorAll('button')];
  const at = buttons.indexOf(event.target);
  const next = { ArrowDown: at + 1, ArrowUp: at - 1, Home: 0, End: buttons.length - 1 }[event.key];
  if (next === undefined) return;
  event.preventDefault();
  buttons[Math.max(0, Math.min(next, buttons.length - 1))].focus();
}

function stopAt(button) {
  elementOf('frames-list').querySelector('[tabindex="0"]')?.setAttribute('tabindex', '-1');
  button.setAttribute('tabindex', '0');
}

// The trace that the page was made with, if there is one: beside its frames stands what smap made of them, names and all. Where
// the address has a place, none of them is gone to.
function showGiven(hasPlace) {
  if (!given) return;
  const rewritten = given.rewritten.split('\n');
  const first = show(framesIn(given.trace, isNamed).map((frame) => ({ ...frame, rewritten: rewritten[frame.number].trim() })));
  if (!hasPlace) first?.click();
}

// Shows them, and gives the button of the first that is of a bundle of the page, or of the first.
function show(frames) {
  const seen = frames.slice(0, MOST);
  const count = `${frames.length > MOST ? 'the first ' : ''}${many(seen.length, 'frame', 'frames')}`;
  elementOf('frames').hidden = false;
  elementOf('frames-count').textContent = seen.length > 0 ? count : 'no line names a place of a file';
  const buttons = seen.map(buttonOf);
  elementOf('frames-list').replaceChildren(...buttons.map((button) => {
    const item = document.createElement('li');
    item.append(button);
    return item;
  }));
  const own = seen.findIndex(({ place }) => isNamed(place.url));
  const first = buttons[Math.max(own, 0)];
  if (first) stopAt(first);
  return first;
}

function originOf({ text, place, rewritten = text }) {
  if (rewritten !== text) return rewritten;
  const bundle = bundleNamed(place.url);
  return bundle ? answerOf(mappingAt(bundle.map, place.line - 1, place.column - 1), bundle) : 'another file';
}

function buttonOf(frame) {
  const { text } = frame;
  const button = document.createElement('button');
  const shown = visible(text);
  button.setAttribute('tabindex', '-1');
  button.addEventListener('focus', () => stopAt(button));
  button.append(isolated('frame', shown));
  added(button, 'span', 'origin', visible(originOf(frame)));
  button.title = shown;
  button.addEventListener('click', () => {
    elementOf('frames-list').querySelector('[aria-current]')?.removeAttribute('aria-current');
    button.setAttribute('aria-current', 'true');
    elementOf('place').value = text;
    go(text);
  });
  return button;
}
