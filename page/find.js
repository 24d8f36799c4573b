// The search in the text of a pane: how often the words stand in it, and the way from each place to the next.
import { firstWhere } from './search.js';
export { Finder };

const MOST = 1000000;

// Where words begin in a text, whatever the case of their letters.
function startsOf(text, words) {
  const starts = [];
  if (words === '') return starts;
  const pattern = new RegExp(words.replace(/[.*+?^${}()|[\]\\]/g, '\\$&'), 'gi');
  while (starts.length < MOST && pattern.test(text)) starts.push(pattern.lastIndex - words.length);
  return starts;
}

class Finder {
  constructor(element, pane) {
    this.pane = pane;
    this.field = element.querySelector('.find input');
    this.output = element.querySelector('.find output');
    this.steps = element.querySelectorAll('.find button');
    pane.finder = this;
  }

  listen() {
    this.forget();
    this.field.addEventListener('input', () => {
      this.forget();
      this.pane.later();
    });
    this.field.addEventListener('keydown', (event) => {
      if (event.key === 'Enter') this.step(event.shiftKey ? -1 : 1);
      else if (event.key === 'Escape') this.end();
      else return;
      event.preventDefault();
      event.stopPropagation();
    });
    this.steps.forEach((button, i) => button.addEventListener('click', () => this.step(i === 0 ? -1 : 1)));
  }

  // What was found is of another text, or of other words.
  forget() {
    this.starts = this.pane.text ? startsOf(this.pane.text.text, this.field.value) : [];
    this.at = -1;
    this.report();
  }

  report() {
    const { length } = this.starts;
    this.output.textContent = this.field.value === '' ? '' : `${this.at + 1} of ${length}${length === MOST ? '+' : ''}`;
    for (const button of this.steps) button.disabled = length === 0;
  }

  // Back to the pane, with nothing found.
  end() {
    this.field.value = '';
    this.forget();
    this.pane.later();
    this.pane.scroller.focus();
  }

  // To the next place, or the one before, from the caret or what is seen, and from the end to the begin.
  step(by) {
    const { length } = this.starts;
    if (length === 0) return;
    const from = this.at < 0 ? this.next() + (by < 0 ? 0 : -1) : this.at;
    this.at = (from + by + length) % length;
    this.pane.arrive(this.placeOf(this.starts[this.at]));
    this.report();
  }

  // The first place at the caret or behind it, and without one behind the top of what is seen.
  next() {
    const { pane } = this;
    const place = pane.caret ?? pane.topPlace();
    const unit = (pane.text.lines.starts[place.line] ?? Infinity) + place.column;
    return firstWhere(0, this.starts.length, (i) => this.starts[i] >= unit);
  }

  placeOf(unit) {
    const { starts, count } = this.pane.text.lines;
    const line = firstWhere(0, count, (i) => i + 1 === count || starts[i + 1] > unit);
    return { line, column: unit - starts[line] };
  }

  // Visits what was found in a part of a line: its first column and the one behind it, and whether it is the one that was gone to.
  visit(line, begin, end, visit) {
    const start = this.pane.text.lines.starts[line];
    const { length } = this.field.value;
    let i = firstWhere(0, this.starts.length, (at) => this.starts[at] + length > start + begin);
    for (; i < this.starts.length && this.starts[i] < start + end; i += 1) {
      visit(this.starts[i] - start, this.starts[i] - start + length, i === this.at);
    }
  }
}
