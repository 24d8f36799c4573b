// The colours of the page's style, and those of the sources.
import { SHADES, shadeOf } from './shades.js';
export { colourOf, colours, readColours };

const colours = {};

// Those that are seen, of light and dark ones.
function readColours() {
  const style = getComputedStyle(document.documentElement);
  const of = (name) => style.getPropertyValue(`--${name}`).trim();
  Object.assign(colours, {
    text: of('text'),
    quiet: of('quiet'),
    paper: of('paper'),
    gutter: of('gutter'),
    edge: of('edge'),
    accent: of('accent'),
    row: of('row'),
    tint: Number(of('tint')),
    lit: Number(of('lit')),
    shades: Array.from({ length: SHADES }, (_, i) => of(`shade-${i}`)),
  });
}

// The colour of a source by its rank, the largest source being the first.
function colourOf(rank, alpha) {
  return `rgb(${colours.shades[shadeOf(rank)]} / ${alpha})`;
}
