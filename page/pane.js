// A pane that shows a text of any size: what is seen of it is drawn on a canvas, line by line and column by column.
import { FONT, LINE_HEIGHT, TOP, clear, drawRows } from './drawing.js';
import { firstWhere } from './search.js';
export { Pane };

const PAD = 6;
// No browser lays out more than some millions of pixels. A longer text is scrolled by its share of so many.
const MOST_PIXELS = 4000000;

class Pane {
  // `segments` visits the segments of a part of a line: begin and end columns, mapping, rank of its source or -1. `isLit` says
  // whether a mapping lights up: 2 for the one that is meant, 1 for another of the same place.
  constructor(element, { segments, isLit, wraps }) {
    Object.assign(this, { segments, isLit, wraps });
    this.scroller = element.querySelector('.scroller');
    this.spacer = element.querySelector('.spacer');
    this.canvas = element.querySelector('canvas');
    this.hint = element.querySelector('.hint');
    this.context = this.canvas.getContext('2d');
    this.text = null;
    this.caret = null;
    this.left = 0;
    this.top = 0;
    this.share = { across: 1, down: 1 };
    this.context.font = FONT;
    this.cell = this.context.measureText('0'.repeat(100)).width / 100;
    this.listenToScrolling();
  }

  show(text) {
    this.text = text;
    this.caret = null;
    this.widest = text ? text.longest : 0;
    this.past = 0;
    this.left = 0;
    this.top = 0;
    this.finder?.forget();
    this.resize();
  }

  get lines() {
    return this.text ? this.text.lines.count : 0;
  }

  // ---- rows: a line is one, or where lines are wrapped one for each `across` cells of it

  resize() {
    const kept = this.kept();
    // Bars that come and go would change the room while it is measured.
    this.scroller.style.overflow = this.wraps ? 'hidden scroll' : 'scroll';
    const { clientWidth: width, clientHeight: height } = this.scroller;
    this.width = width;
    this.height = height;
    this.gutter = Math.ceil((String(this.lines).length + 2) * this.cell);
    this.begin = this.gutter + PAD;
    this.across = this.wraps ? Math.max(8, Math.floor((width - this.begin) / this.cell)) : Infinity;
    this.layRows();
    if (kept) this.top += (this.seatOf(kept.line, kept.column).row - kept.row) * LINE_HEIGHT;
    this.wide = this.wraps ? width : this.begin + Math.ceil(Math.max(this.widest + 4, this.past) * this.cell);
    this.high = this.rows * LINE_HEIGHT + 2 * TOP;
    this.spacer.style.width = `${Math.min(this.wide, MOST_PIXELS)}px`;
    this.spacer.style.height = `${Math.min(this.high, MOST_PIXELS)}px`;
    const room = (all, seen) => (all > MOST_PIXELS ? (all - seen) / (MOST_PIXELS - seen) : 1);
    this.share = { across: room(this.wide, width), down: room(this.high, height) };
    this.scale = window.devicePixelRatio || 1;
    this.canvas.width = Math.round(width * this.scale);
    this.canvas.height = Math.round(height * this.scale);
    this.canvas.style.width = `${width}px`;
    this.canvas.style.height = `${height}px`;
    this.scrollTo(this.left, this.top);
    this.draw();
  }

  // The caret, which stays where it is seen when lines are wrapped anew.
  kept() {
    const { caret, rowsOf } = this;
    if (!this.wraps || !caret || !rowsOf || rowsOf.text !== this.text || caret.line >= this.lines) return null;
    const { row } = this.seatOf(caret.line, caret.column);
    const y = row * LINE_HEIGHT - this.top;
    return y >= 0 && y < this.height ? { ...caret, row } : null;
  }

  layRows() {
    this.rows = this.lines;
    if (!this.wraps || (this.rowsOf && this.rowsOf.text === this.text && this.rowsOf.across === this.across)) {
      if (this.wraps) this.rows = this.rowsOf.before[this.lines];
      return;
    }
    const before = new Int32Array(this.lines + 1);
    for (let line = 0; line < this.lines; line += 1) {
      before[line + 1] = before[line] + Math.max(1, Math.ceil(this.text.cellsOf(line) / this.across));
    }
    this.rowsOf = { text: this.text, across: this.across, before };
    this.rows = before[this.lines];
  }

  // The line of a row, and the cell of the line with which the row begins.
  lineOfRow(row) {
    if (!this.wraps) return { line: row, base: 0 };
    const { before } = this.rowsOf;
    const line = firstWhere(0, this.lines, (i) => before[i + 1] > row);
    return { line, base: (row - before[line]) * this.across };
  }

  // The row and the cell of a column of a line.
  seatOf(line, column) {
    const cell = this.text.cellsBefore(line, column);
    if (!this.wraps || line >= this.lines) return { row: line, cell };
    const { before } = this.rowsOf;
    const down = Math.min(Math.floor(cell / this.across), before[line + 1] - before[line] - 1);
    return { row: before[line] + down, cell: cell - down * this.across };
  }

  wrap(wraps) {
    const place = this.caret ?? this.topPlace();
    this.wraps = wraps;
    this.left = 0;
    this.resize();
    this.reveal(place.line, place.column);
  }

  // The first place that is seen.
  topPlace() {
    const { line, base } = this.lineOfRow(Math.max(0, Math.min(Math.floor((this.top - TOP) / LINE_HEIGHT), this.rows - 1)));
    return { line, column: this.text ? this.text.columnAt(line, base + this.left / this.cell) : 0 };
  }

  // ---- scrolling

  get isScaled() {
    return this.share.across > 1 || this.share.down > 1;
  }

  scrollTo(left, top) {
    this.left = Math.max(0, Math.min(left, this.wide - this.width));
    this.top = Math.max(0, Math.min(top, this.high - this.height));
    this.scroller.scrollLeft = this.left / this.share.across;
    this.scroller.scrollTop = this.top / this.share.down;
    this.at = { left: this.scroller.scrollLeft, top: this.scroller.scrollTop };
    this.later();
  }

  // Brings a place into view, where it isn't well within it: with as much as may be of what stands before it on its line.
  reveal(line, column) {
    if (!this.text) return;
    const { row, cell } = this.seatOf(line, column);
    const x = this.begin + cell * this.cell;
    const y = TOP + row * LINE_HEIGHT;
    this.reach(this.wraps || cell < this.widest ? 0 : Math.ceil(cell) + 12);
    let { left, top } = this;
    const most = this.width - Math.min(80, this.width / 4);
    if (!this.wraps && (x - left < this.begin || x - left > most)) left = x < most ? 0 : x - (this.width * 2) / 3;
    if (y - top < LINE_HEIGHT || y - top > this.height - 3 * LINE_HEIGHT) top = y - this.height / 3;
    if (left !== this.left || top !== this.top) this.scrollTo(left, top);
  }

  // Makes room for a place past the end of its line, for as long as that is what is shown.
  reach(past) {
    if (past === this.past) return;
    this.past = past;
    this.resize();
  }

  letGo() {
    this.caret = null;
    this.reach(0);
  }

  // What `seeAgain` brings back.
  seen() {
    const { caret, past, left, top } = this;
    return { caret, past, left, top };
  }

  seeAgain({ caret, past, left, top }) {
    this.caret = caret;
    this.reach(past);
    this.scrollTo(left, top);
  }

  // The line and column under a point of the page, or null.
  placeAt(x, y) {
    if (!this.text) return null;
    const box = this.scroller.getBoundingClientRect();
    const across = x - box.left - this.scroller.clientLeft;
    const down = y - box.top - this.scroller.clientTop;
    if (across < this.gutter || down < 0 || across >= this.width || down >= this.height) return null;
    const row = Math.floor((down + this.top - TOP) / LINE_HEIGHT);
    if (row < 0 || row >= this.rows) return null;
    const { line, base } = this.lineOfRow(row);
    const cell = base + Math.min((across + this.left - this.begin) / this.cell, this.across - 0.5);
    return { line, column: this.text.columnAt(line, Math.max(base, cell)), isPast: cell > this.text.cellsOf(line) };
  }

  // The point of the page in the middle of the cell at a place, or null where it isn't seen.
  pointAt(line, column) {
    const box = this.scroller.getBoundingClientRect();
    const { row, cell } = this.seatOf(line, column);
    const x = this.begin + (cell + 0.5) * this.cell - this.left;
    const y = TOP + (row + 0.5) * LINE_HEIGHT - this.top;
    if (x < this.gutter || x >= this.width || y < 0 || y >= this.height) return null;
    return { x: box.left + this.scroller.clientLeft + x, y: box.top + this.scroller.clientTop + y };
  }

  listenToScrolling() {
    const { scroller } = this;
    scroller.addEventListener('scroll', () => {
      const { scrollLeft, scrollTop } = scroller;
      if (Math.abs(scrollLeft - this.at.left) >= 1) this.left = scrollLeft * this.share.across;
      if (Math.abs(scrollTop - this.at.top) >= 1) this.top = scrollTop * this.share.down;
      this.at = { left: scrollLeft, top: scrollTop };
      this.later();
    });
    scroller.addEventListener(
      'wheel',
      (event) => {
        if (!this.isScaled || event.ctrlKey) return;
        event.preventDefault();
        const unit = event.deltaMode === 1 ? LINE_HEIGHT : event.deltaMode === 2 ? this.height : 1;
        const [across, down] = event.shiftKey && !event.deltaX ? [event.deltaY, 0] : [event.deltaX, event.deltaY];
        this.scrollTo(this.left + across * unit, this.top + down * unit);
      },
      { passive: false },
    );
    scroller.addEventListener('keydown', (event) => {
      if (event.altKey || event.ctrlKey || event.metaKey) return;
      const step = {
        ArrowLeft: [-8 * this.cell, 0],
        ArrowRight: [8 * this.cell, 0],
        ArrowUp: [0, -LINE_HEIGHT],
        ArrowDown: [0, LINE_HEIGHT],
        PageUp: [0, LINE_HEIGHT - this.height],
        PageDown: [0, this.height - LINE_HEIGHT],
        Home: event.shiftKey ? [-Infinity, 0] : [-Infinity, -Infinity],
        End: event.shiftKey ? [Infinity, 0] : [0, Infinity],
      }[event.key];
      if (!step) return;
      event.preventDefault();
      this.scrollTo(this.left + step[0], this.top + step[1]);
    });
  }

  // Goes to a place, as a click on it does, and shows it.
  arrive(place) {
    this.reveal(place.line, place.column);
    this.choose(place);
    this.caret = place;
    this.reveal(place.line, place.column);
    this.later();
  }

  // Tells of the place that is pointed at, or null, and of the one that is clicked.
  listen({ point, choose }) {
    const { scroller } = this;
    this.choose = choose;
    scroller.addEventListener('pointermove', (event) => {
      const place = this.placeAt(event.clientX, event.clientY);
      point(place && !place.isPast ? place : null);
    });
    scroller.addEventListener('pointerleave', () => point(null));
    scroller.addEventListener('click', (event) => {
      const place = this.placeAt(event.clientX, event.clientY);
      if (place) choose(place);
    });
  }

  // ---- drawing

  later() {
    if (this.waits) return;
    this.waits = true;
    requestAnimationFrame(() => {
      this.waits = false;
      this.draw();
    });
  }

  draw() {
    clear(this);
    if (!this.text || this.width <= 0 || this.height <= 0) return;
    const rows = this.seenRows();
    drawRows(this, rows);
    // Of a line with wide characters it is known only here how wide it is.
    const wide = rows.filter(({ line }) => !this.wraps && !this.text.isSimpleLine(line));
    const widest = wide.reduce((most, { line }) => Math.max(most, this.text.cellsOf(line)), 0);
    if (widest > this.widest) {
      this.widest = widest;
      this.resize();
    }
  }

  // The rows that are seen, each with its line, the part of it that is seen, and where its line's cell 0 would be.
  seenRows() {
    const from = Math.max(0, Math.floor((this.top - TOP) / LINE_HEIGHT));
    const to = Math.min(this.rows, Math.ceil((this.top - TOP + this.height) / LINE_HEIGHT));
    const rows = [];
    for (let row = from; row < to; row += 1) {
      const { line, base } = this.lineOfRow(row);
      const low = this.wraps ? base : Math.max(0, (this.left - PAD) / this.cell - 2);
      const high = this.wraps ? base + this.across : (this.left + this.width - this.begin) / this.cell + 2;
      const begin = this.text.columnAt(line, low);
      const end = this.text.columnAt(line, high);
      rows.push({ line, base, begin, end, y: TOP + row * LINE_HEIGHT - this.top, zero: this.begin - base * this.cell - this.left });
    }
    return rows;
  }
}
