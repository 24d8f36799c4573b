// The sources as areas by folders, each as large as the bytes that it makes.
import { colourOf, colours } from './colours.js';
import { added } from './elements.js';
import { nameOf, rankOf, resolvedOf, share } from './sources.js';
import { squares } from './tree.js';
import { visible } from './units.js';
export { Areas };

const HEAD = 19;
const LEAST = 3;
// The page's style has these sizes too.
const LABEL_HEIGHT = 18;
const LABEL_EDGES = 12;
const LABEL_GAP = 8;
const LEAST_NAME = 48;

class Areas {
  constructor(element, path) {
    Object.assign(this, { element, path });
    this.way = [];
  }

  // Tells of the source that is to be opened.
  listen(open) {
    this.open = open;
  }

  show(tree) {
    this.tree = tree;
    this.way = [tree];
    this.draw();
  }

  // Shows the last one of these folders alone, each of which is in the one before it.
  enter(way) {
    this.way = way;
    this.draw();
  }

  // All areas anew. Those too small to be seen are counted in `data-unseen`.
  draw() {
    const { clientWidth: width, clientHeight: height } = this.element;
    if (!this.tree || width === 0) return;
    this.unseen = 0;
    const nodes = document.createDocumentFragment();
    const top = this.way[this.way.length - 1];
    this.fill(top, { x: 0, y: 0, width, height }, nodes, this.way);
    this.element.replaceChildren(nodes);
    this.element.dataset.unseen = String(this.unseen);
    this.element.dataset.bytes = String(top.bytes);
    this.path.replaceChildren(
      ...this.way.map((node, i) => {
        const button = document.createElement('button');
        button.textContent = i === 0 ? 'All' : visible(node.name);
        button.disabled = i === this.way.length - 1;
        button.addEventListener('click', () => this.enter(this.way.slice(0, i + 1)));
        return button;
      }),
    );
  }

  fill(node, box, nodes, way) {
    squares(node.children, box, (child, place) => {
      const { x, y, width, height } = place;
      if (width < LEAST || height < LEAST) {
        this.unseen += child.bytes;
        return;
      }
      const button = document.createElement('button');
      const isFolder = Boolean(child.children);
      const label = labelOf(visible(child.name), share(child.bytes), isFolder, width, height);
      const hasHead = isFolder && label && width > 46 && height > HEAD + 16;
      const whole = child.source < 0 ? child.name : nameOf(child.source);
      const reported = `${visible(whole)}, ${share(child.bytes)}`;
      Object.assign(button.style, { left: `${x}px`, top: `${y}px`, width: `${width}px`, height: `${height}px` });
      button.title = child.source < 0 ? reported : `${visible(resolvedOf(child.source))}, ${share(child.bytes)}`;
      button.setAttribute('aria-label', reported);
      button.className = isFolder ? 'folder' : child.source < 0 ? 'area unmapped' : 'area';
      nodes.append(button);
      if (isFolder) {
        if (hasHead) button.append(label);
        button.addEventListener('click', () => this.enter([...way, child]));
        const inset = Math.min(2, width / 8, height / 8);
        const head = hasHead ? HEAD : inset;
        const within = { x: x + inset, y: y + head, width: width - 2 * inset, height: height - head - inset };
        this.fill(child, within, nodes, [...way, child]);
        return;
      }
      button.dataset.bytes = String(child.bytes);
      button.dataset.source = String(child.source);
      if (child.source >= 0) {
        button.style.backgroundColor = colourOf(rankOf(child.source), colours.tint);
        button.addEventListener('click', () => this.open(child.source));
      } else button.setAttribute('aria-disabled', 'true');
      if (label) button.append(label);
    });
  }
}

// The name and the share of an area, as far as they can be read there, or null. Beside the name of a folder stands its share.
function labelOf(name, portion, isFolder, width, height) {
  const room = width - LABEL_EDGES;
  const wide = labelWidth(name, isFolder);
  if (height < LABEL_HEIGHT || room < Math.min(wide, LEAST_NAME)) return null;
  const label = Object.assign(document.createElement('span'), { className: 'label' });
  added(label, 'b', '', name);
  const left = isFolder ? room - wide - LABEL_GAP : height < 2 * LABEL_HEIGHT ? 0 : room;
  const shown = [portion, portion.split(' · ')[1]].find((text) => labelWidth(text) <= left);
  if (shown) added(label, 'i', '', shown);
  return label;
}

const ruler = document.createElement('canvas').getContext('2d');
function labelWidth(text, isBold = false) {
  ruler.font = `${isBold ? 600 : 500} 12px ${getComputedStyle(document.body).fontFamily}`;
  return Math.ceil(ruler.measureText(text).width);
}
