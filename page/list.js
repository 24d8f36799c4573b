// The list of sources. Only the rows that are seen stand in the page.
import { colourOf } from './colours.js';
import { added } from './elements.js';
import { rankOf, share } from './sources.js';
import { visible } from './units.js';
export { List };

const ROW = 42;

class List {
  constructor(element) {
    this.element = element;
    this.rows = element.querySelector('.rows');
    this.all = [];
    this.shown = [];
    this.active = 0;
    this.current = -1;
  }

  // Tells of the source that is to be opened.
  listen(open) {
    this.open = open;
    this.element.addEventListener('scroll', () => this.draw());
    this.element.addEventListener('keydown', (event) => this.key(event));
  }

  show(all) {
    this.all = all;
    this.current = -1;
    this.filter('');
  }

  filter(words) {
    const wanted = words.toLowerCase();
    this.shown = wanted ? this.all.filter(({ name }) => name.toLowerCase().includes(wanted)) : this.all;
    this.active = 0;
    this.rows.style.height = `${this.shown.length * ROW}px`;
    this.element.scrollTop = 0;
    this.draw();
  }

  // Marks the source that is open.
  mark(index) {
    if (this.current === index) return;
    this.current = index;
    const at = this.shown.findIndex((source) => source.index === index);
    if (at >= 0) this.activate(at);
    this.draw();
  }

  activate(at) {
    this.active = Math.max(0, Math.min(at, this.shown.length - 1));
    const top = this.active * ROW;
    const { scrollTop, clientHeight } = this.element;
    if (top < scrollTop) this.element.scrollTop = top;
    else if (top + ROW > scrollTop + clientHeight) this.element.scrollTop = top + ROW - clientHeight;
  }

  key(event) {
    if (event.altKey || event.ctrlKey || event.metaKey) return;
    const page = Math.max(1, Math.floor(this.element.clientHeight / ROW) - 1);
    const steps = { ArrowDown: 1, ArrowUp: -1, PageDown: page, PageUp: -page, Home: -Infinity, End: Infinity };
    if (event.key in steps) {
      this.activate(this.active + steps[event.key]);
      this.draw();
    } else if (event.key === 'Enter' || event.key === ' ') {
      const source = this.shown[this.active];
      if (source) this.open(source.index);
    } else return;
    event.preventDefault();
  }

  draw() {
    const from = Math.max(0, Math.floor(this.element.scrollTop / ROW) - 2);
    const to = Math.min(this.shown.length, Math.ceil((this.element.scrollTop + this.element.clientHeight) / ROW) + 2);
    const rows = [];
    for (let i = from; i < to; i += 1) rows.push(this.row(i));
    this.rows.replaceChildren(...(rows.length > 0 ? rows : [this.nothing()]));
    const active = this.shown[this.active];
    if (active && this.active >= from && this.active < to) {
      this.element.setAttribute('aria-activedescendant', `source-${active.index}`);
    } else this.element.removeAttribute('aria-activedescendant');
  }

  nothing() {
    const element = document.createElement('p');
    element.className = 'nothing';
    element.setAttribute('role', 'option');
    element.setAttribute('aria-disabled', 'true');
    element.textContent = this.all.length > 0 ? 'No source has this in its name.' : 'The map has no sources.';
    return element;
  }

  row(i) {
    const { index, name, resolved, bytes, isIgnored, hasContent } = this.shown[i];
    const row = document.createElement('div');
    row.className = `row${i === this.active ? ' active' : ''}`;
    row.id = `source-${index}`;
    row.setAttribute('role', 'option');
    row.setAttribute('aria-selected', String(index === this.current));
    row.setAttribute('aria-setsize', String(this.shown.length));
    row.setAttribute('aria-posinset', String(i + 1));
    row.dataset.source = String(index);
    row.dataset.bytes = String(bytes);
    row.style.top = `${i * ROW}px`;
    const shown = visible(name);
    row.title = visible(resolved);
    added(row, 'span', 'swatch').style.backgroundColor = colourOf(rankOf(index), 0.85);
    const cut = shown.lastIndexOf('/', shown.length - 2) + 1;
    const [size, percent] = share(bytes).split(' · ');
    const above = added(row, 'span', 'line');
    added(above, 'b', '', shown.slice(cut) || shown);
    if (isIgnored) added(above, 'em', '', 'ignored');
    if (!hasContent) added(above, 'em', '', 'no content');
    added(above, 'span', 'number', percent);
    const below = added(row, 'span', 'line below');
    added(below, 'span', 'folder', shown.slice(0, cut));
    added(below, 'span', 'number', size);
    row.addEventListener('click', () => {
      this.active = i;
      this.open(index);
    });
    return row;
  }
}
