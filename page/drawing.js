// How a pane draws the rows that are seen of its text, on its canvas.
import { colourOf, colours } from './colours.js';
import { HIDDEN, JOINED, isHigh, isLow, isSimple, kindsOfUnits } from './units.js';
export { FONT, LINE_HEIGHT, TOP, clear, drawRows };

const FONT = '13px ui-monospace, "SF Mono", Menlo, Consolas, "DejaVu Sans Mono", "Liberation Mono", monospace';
const LINE_HEIGHT = 20;
const TOP = 6;

function clear({ context, width, height, scale }) {
  context.setTransform(scale, 0, 0, scale, 0, 0);
  context.fillStyle = colours.paper;
  context.fillRect(0, 0, width, height);
}

// Rows as `seenRows` of a pane gives them, over what is cleared.
function drawRows(pane, rows) {
  const { context, width, height, gutter } = pane;
  context.font = FONT;
  context.textBaseline = 'middle';
  context.direction = 'ltr';
  if ('textRendering' in context) context.textRendering = 'optimizeSpeed';
  if ('fontKerning' in context) context.fontKerning = 'none';
  context.save();
  context.beginPath();
  context.rect(gutter, 0, width - gutter, height);
  context.clip();
  const lit = [];
  for (const row of rows) drawSegments(pane, row, lit);
  drawLit(context, lit);
  for (const row of rows) drawText(pane, row);
  for (const row of rows) drawFound(pane, row);
  drawCaret(pane);
  context.restore();
  drawGutter(pane, rows);
}

function isCaretRow({ caret, wraps, text }, { line, begin, end }) {
  if (!caret || caret.line !== line) return false;
  return !wraps || (caret.column >= begin && (caret.column < end || end === text.lengthOf(line)));
}

// The colours of a row. What lights up in it is put into `lit`, since it is drawn over those of all rows.
function drawSegments(pane, row, lit) {
  const { context, text, cell } = pane;
  const { line, begin, end, y, zero } = row;
  if (isCaretRow(pane, row)) {
    context.fillStyle = colours.row;
    context.fillRect(pane.gutter, y, pane.width - pane.gutter, LINE_HEIGHT);
  }
  pane.segments(line, begin, end, (from, to, index, rank) => {
    const left = zero + text.cellsBefore(line, Math.max(from, begin)) * cell;
    const right = zero + text.cellsBefore(line, Math.min(to, end)) * cell;
    const isLit = pane.isLit(index);
    if (rank >= 0 && right > left) {
      context.fillStyle = colourOf(rank, colours.tint);
      context.fillRect(left, y + 1, right - left, LINE_HEIGHT - 2);
      if (from >= begin) {
        context.fillStyle = colourOf(rank, colours.tint * 2);
        context.fillRect(left, y + 1, 1, LINE_HEIGHT - 2);
      }
    }
    if (isLit && (right > left || from >= begin)) {
      lit.push({ left, right: Math.max(right, left + 3), y, rank, isChosen: isLit === 2 });
    }
  });
}

function drawLit(context, lit) {
  for (const { left, right, y, rank, isChosen } of lit) {
    if (rank >= 0) {
      context.fillStyle = colourOf(rank, isChosen ? colours.lit : colours.lit * 0.7);
      context.fillRect(left, y + 1, right - left, LINE_HEIGHT - 2);
    }
    context.strokeStyle = isChosen ? colours.text : rank >= 0 ? colourOf(rank, 1) : colours.quiet;
    context.lineWidth = isChosen ? 2 : 1.25;
    context.strokeRect(left, y + 1, right - left, LINE_HEIGHT - 2);
  }
}

// What a search found is framed, and underlined.
function drawFound({ context, text, cell, finder }, { line, begin, end, y, zero }) {
  finder?.visit(line, begin, end, (from, to, isCurrent) => {
    const left = zero + text.cellsBefore(line, Math.max(from, begin)) * cell;
    const width = zero + text.cellsBefore(line, Math.min(to, end)) * cell - left;
    context.fillStyle = colours.accent;
    context.fillRect(left, y + LINE_HEIGHT - 2, width, 2);
    context.strokeStyle = colours.accent;
    context.lineWidth = isCurrent ? 2 : 1;
    context.strokeRect(left, y + 1, width, LINE_HEIGHT - 2);
  });
}

function drawText(pane, row) {
  const { context, text, cell } = pane;
  const { line, begin, end, y, zero } = row;
  context.fillStyle = colours.text;
  if (!text.isSimpleLine(line)) {
    drawCells(pane, row);
    return;
  }
  const start = text.lines.starts[line];
  context.fillText(text.text.slice(start + begin, start + end), zero + begin * cell, middleOf(y));
}

// A row whose characters are no cell each: those that are not simple are put one by one, with those that are joined to them.
function drawCells({ context, text, cell }, { line, begin, end, y, zero }) {
  const middle = middleOf(y);
  const start = text.lines.starts[line];
  const x = (cells) => zero + cells * cell;
  const units = kindsOfUnits();
  let cells = text.cellsBefore(line, begin);
  let run = '';
  let runAt = cells;
  const flush = () => {
    if (run) context.fillText(run, x(runAt), middle);
    run = '';
  };
  for (let column = begin; column < end; column += 1) {
    const at = start + column;
    const code = text.text.charCodeAt(at);
    const wide = text.cellsOfUnit(at, cells);
    const isJoined = column + 1 < end && units[text.text.charCodeAt(at + 1)] === JOINED;
    if (isSimple(code) && !isJoined) {
      if (!run) runAt = cells;
      run += text.text[at];
    } else {
      flush();
      const isPair = isHigh(code) && column + 1 < text.lengthOf(line) && isLow(text.text.charCodeAt(at + 1));
      let next = column + (isPair ? 2 : 1);
      if (code !== 9 && (isPair || units[code] !== HIDDEN)) {
        while (next < end && units[text.text.charCodeAt(start + next)] === JOINED) next += 1;
        const room = (isPair ? 2 : Math.max(1, wide)) * cell * 1.15;
        context.fillText(text.text.slice(at, start + next), x(cells), middle, room);
      } else if (code !== 9) {
        context.strokeStyle = colours.quiet;
        context.lineWidth = 1;
        context.strokeRect(x(cells) + 1.5, middle - 4.5, cell - 3, 8);
      }
      cells += isPair ? 1 : 0;
      column = next - 1;
    }
    cells += wide;
  }
  flush();
}

function drawCaret(pane) {
  const { caret, context } = pane;
  if (!caret) return;
  const { row, cell } = pane.seatOf(caret.line, caret.column);
  context.fillStyle = colours.accent;
  context.fillRect(pane.begin + cell * pane.cell - pane.left - 1, TOP + row * LINE_HEIGHT - pane.top + 1, 2, LINE_HEIGHT - 2);
}

// The numbers of lines, each beside its first row that is seen.
function drawGutter({ context, gutter, height, caret, cell }, rows) {
  context.fillStyle = colours.gutter;
  context.fillRect(0, 0, gutter, height);
  context.fillStyle = colours.edge;
  context.fillRect(gutter - 1, 0, 1, height);
  context.textAlign = 'right';
  for (const [i, { line, base, y }] of rows.entries()) {
    const isFirst = i === 0 ? base > 0 && y > -4 : i === 1 && rows[0].y <= -4 && rows[0].base > 0;
    if (base === 0 || isFirst) {
      context.fillStyle = caret && caret.line === line ? colours.text : colours.quiet;
      context.fillText(String(line + 1), gutter - cell, middleOf(y));
    }
  }
  context.textAlign = 'left';
}

// Where the middle of the letters of a row is.
function middleOf(y) {
  return y + LINE_HEIGHT / 2 + 0.5;
}
