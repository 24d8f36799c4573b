// What the page holds: bundles, each a generated text, its map and what smap says of them, the one that is shown, and a trace.
import { elementOf } from './elements.js';
import { decodeMappings } from './map.js';
import { Text } from './text.js';
export { bundles, given, held, turnTo };

// What an element holds: JSON, compressed, in Base64.
async function contentOf(element) {
  const digits = atob(element.textContent);
  element.remove();
  const bytes = new Uint8Array(digits.length);
  for (let i = 0; i < digits.length; i += 1) bytes[i] = digits.charCodeAt(i);
  const { readable, writable } = new DecompressionStream('deflate');
  const writer = writable.getWriter();
  writer.write(bytes);
  writer.close();
  return new Response(readable).json();
}

// By the bytes that each source makes, the largest first; and the other way round.
function rankedBy(bytes) {
  const ranked = bytes.map((_, index) => index).sort((a, b) => bytes[b] - bytes[a] || a - b);
  const ranks = new Int32Array(bytes.length);
  ranked.forEach((index, rank) => {
    ranks[index] = rank;
  });
  return { ranked, ranks };
}

async function bundleOf(elements, index) {
  const [facts, record, text] = await Promise.all(elements.map(contentOf));
  const map = decodeMappings(record.mappings);
  record.mappings = '';
  return {
    index,
    name: facts.name,
    // The bytes of each source, by index, those that are unmapped, and all.
    owned: facts.bytes,
    fit: facts.fit,
    record,
    // What the names of sources become against the base.
    resolved: facts.resolved ?? record.sources,
    ignored: new Set(record.ignoreList ?? []),
    generated: new Text(text),
    map,
    ...rankedBy(facts.bytes.sources),
    // The sources that were opened.
    opened: new Map(),
  };
}

if (!('DecompressionStream' in window)) {
  const why = 'This browser is too old for the page: it has no DecompressionStream.';
  elementOf('note').textContent = why;
  throw new Error(why);
}
const parts = [...document.querySelectorAll('script.part')];
const bundles = await Promise.all(Array.from({ length: parts.length / 3 }, (_, i) => bundleOf(parts.slice(3 * i, 3 * i + 3), i)));
// A trace and what smap makes of it, or null.
const trace = document.querySelector('script.given');
const given = trace ? await contentOf(trace) : null;
let at = 0;

const held = () => bundles[at];

// Another one is shown from now on.
function turnTo(index) {
  at = index;
}
