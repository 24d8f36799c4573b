// The sources in their folders by bytes, and how they are laid out as areas.
export { squares, treeOf };

const DEEPEST = 40;

// The pieces of a source's name: its host, its folders and its file.
function piecesOf(name) {
  const host = /^((?:[a-z][a-z0-9+.-]*:)?\/\/[^/]*)\/(.*)$/is.exec(name);
  const rest = (host ? host[2] : name).split('/');
  const pieces = host ? [host[1], ...rest] : rest;
  return pieces.length > DEEPEST ? [...pieces.slice(0, DEEPEST - 1), pieces.slice(DEEPEST - 1).join('/')] : pieces;
}

// The folders with the sources in them that have bytes, and the bytes that are unmapped. A folder in which only one other stands
// is one with that.
function treeOf(sources, unmapped) {
  const folder = (name) => ({ name, bytes: 0, source: -1, folders: new Map(), files: [] });
  const top = folder('');
  for (const { index, name, bytes } of sources) {
    if (bytes > 0) {
      const pieces = piecesOf(name);
      const file = pieces.pop();
      let now = top;
      now.bytes += bytes;
      for (const piece of pieces) {
        if (!now.folders.has(piece)) now.folders.set(piece, folder(piece));
        now = now.folders.get(piece);
        now.bytes += bytes;
      }
      now.files.push({ name: file, bytes, source: index });
    }
  }
  if (unmapped > 0) {
    top.bytes += unmapped;
    top.files.push({ name: 'unmapped', bytes: unmapped, source: -1 });
  }
  const closed = (node) => {
    while (node !== top && node.files.length === 0 && node.folders.size === 1) {
      const [only] = node.folders.values();
      Object.assign(node, { name: `${node.name}/${only.name}`, folders: only.folders, files: only.files });
    }
    const children = [...[...node.folders.values()].map(closed), ...node.files];
    return { name: node.name || '/', bytes: node.bytes, source: -1, children: children.sort((a, b) => b.bytes - a.bytes) };
  };
  return closed(top);
}

// Lays areas out in a box, in rows that are as square as may be. They are sorted, the largest first.
function squares(items, box, put) {
  let { x, y, width, height } = box;
  let left = items.reduce((sum, item) => sum + item.bytes, 0);
  let i = 0;
  while (i < items.length && left > 0 && width > 0 && height > 0) {
    const side = Math.min(width, height);
    const scale = (width * height) / left;
    let row = 0;
    let count = 0;
    let worst = Infinity;
    while (i + count < items.length) {
      const next = row + items[i + count].bytes * scale;
      const thick = next / side;
      const most = (items[i].bytes * scale) / thick;
      const least = (items[i + count].bytes * scale) / thick;
      const ratio = Math.max(thick / least, most / thick);
      if (count > 0 && ratio > worst) break;
      worst = ratio;
      row = next;
      count += 1;
    }
    const thick = row / side;
    let along = 0;
    for (let j = i; j < i + count; j += 1) {
      const long = (items[j].bytes * scale) / thick;
      if (width >= height) put(items[j], { x, y: y + along, width: thick, height: long });
      else put(items[j], { x: x + along, y, width: long, height: thick });
      along += long;
      left -= items[j].bytes;
    }
    if (width >= height) {
      x += thick;
      width -= thick;
    } else {
      y += thick;
      height -= thick;
    }
    i += count;
  }
}
