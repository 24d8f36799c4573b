// A text as lines of cells, of which a fixed font fills one with a character, and two with a wide one. Columns are UTF-16 units.
import { firstWhere } from './search.js';
import { JOINED, WIDE, isSimple, kindsOfUnits } from './units.js';
export { Text };

const TAB_STOP = 4;
const MARK_EVERY = 256;

// Where the lines of a text begin and end. LF, CR LF, CR, U+2028 and U+2029 end a line.
function linesOf(text) {
  let starts = new Int32Array(1024);
  let ends = new Int32Array(1024);
  let count = 0;
  let begin = 0;
  const find = (end, from) => {
    const at = text.indexOf(end, from);
    return at < 0 ? Infinity : at;
  };
  const signs = ['\n', '\r', '\u2028', '\u2029'];
  const next = signs.map((sign) => find(sign, 0));
  for (;;) {
    const end = Math.min(next[0], next[1], next[2], next[3], text.length);
    if (count === starts.length) {
      const [less, lesser] = [starts, ends];
      starts = new Int32Array(count * 2);
      starts.set(less);
      ends = new Int32Array(count * 2);
      ends.set(lesser);
    }
    starts[count] = begin;
    ends[count] = end;
    count += 1;
    if (end === text.length) return { count, starts, ends };
    begin = end === next[1] && next[0] === end + 1 ? end + 2 : end + 1;
    for (let i = 0; i < 4; i += 1) if (next[i] < begin) next[i] = find(signs[i], begin);
  }
}

class Text {
  constructor(text) {
    this.text = text;
    this.lines = linesOf(text);
    this.marks = new Map();
    this.simple = new Uint8Array(this.lines.count);
    this.longest = 0;
    for (let line = 0; line < this.lines.count; line += 1) this.longest = Math.max(this.longest, this.lengthOf(line));
  }

  lengthOf(line) {
    return line < this.lines.count ? this.lines.ends[line] - this.lines.starts[line] : 0;
  }

  // Each unit of the line is a cell.
  isSimpleLine(line) {
    if (this.simple[line] === 0) {
      this.simple[line] = 1;
      for (let i = this.lines.starts[line]; i < this.lines.ends[line]; i += 1) {
        if (!isSimple(this.text.charCodeAt(i))) {
          this.simple[line] = 2;
          break;
        }
      }
    }
    return this.simple[line] === 1;
  }

  cellsOfUnit(at, before) {
    const code = this.text.charCodeAt(at);
    if (code === 9) return TAB_STOP - (before % TAB_STOP);
    if (code < 0x300) return 1;
    const kind = kindsOfUnits()[code];
    if (kind === WIDE) return 2;
    return kind === JOINED ? 0 : 1;
  }

  // The cells before each MARK_EVERYth unit of a line.
  marksOf(line) {
    let marks = this.marks.get(line);
    if (!marks) {
      const start = this.lines.starts[line];
      const length = this.lengthOf(line);
      marks = new Int32Array(Math.floor(length / MARK_EVERY) + 2);
      let cells = 0;
      for (let i = 0; i < length; i += 1) {
        if (i % MARK_EVERY === 0) marks[i / MARK_EVERY] = cells;
        cells += this.cellsOfUnit(start + i, cells);
      }
      const full = Math.floor((length + MARK_EVERY - 1) / MARK_EVERY);
      marks.fill(cells, full);
      if (this.marks.size > 5000) this.marks.clear();
      this.marks.set(line, marks);
    }
    return marks;
  }

  // How many cells stand before a column of a line.
  cellsBefore(line, column) {
    const length = this.lengthOf(line);
    if (line >= this.lines.count || this.isSimpleLine(line)) return column;
    const whole = Math.min(column, length);
    const mark = Math.floor(whole / MARK_EVERY);
    const start = this.lines.starts[line];
    let cells = mark === 0 ? 0 : this.marksOf(line)[mark];
    for (let i = mark * MARK_EVERY; i < whole; i += 1) cells += this.cellsOfUnit(start + i, cells);
    return cells + column - whole;
  }

  // The column whose character stands at a cell of a line, or the line's length after its end.
  columnAt(line, cell) {
    const length = this.lengthOf(line);
    if (line >= this.lines.count || this.isSimpleLine(line)) return Math.max(0, Math.min(Math.floor(cell), length));
    const marks = this.marksOf(line);
    const full = Math.floor((length + MARK_EVERY - 1) / MARK_EVERY);
    const mark = Math.max(0, firstWhere(0, full, (i) => marks[i] > cell) - 1);
    const start = this.lines.starts[line];
    let cells = marks[mark];
    for (let i = mark * MARK_EVERY; i < length; i += 1) {
      cells += this.cellsOfUnit(start + i, cells);
      if (cells > cell) return i;
    }
    return length;
  }

  cellsOf(line) {
    return this.cellsBefore(line, this.lengthOf(line));
  }
}
