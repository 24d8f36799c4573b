// The sources of the map: their names, texts, bytes and ranks. A source is meant by its index.
import { held } from './held.js';
import { byOrigin } from './map.js';
import { Text } from './text.js';
export { bytesOf, contentOf, isIgnored, many, nameOf, rankOf, resolvedOf, share, sourceOf };

// The name that the map has, and what it is resolved to.
const nameOf = (source) => held().record.sources[source] ?? `[${source}]`;
const resolvedOf = (source, { resolved } = held()) => resolved[source] ?? `[${source}]`;
const contentOf = (source) => held().record.sourcesContent?.[source] ?? null;
const isIgnored = (source, { ignored } = held()) => ignored.has(source);
const bytesOf = (source) => held().owned.sources[source];

// A number in words, and the share that so many bytes are of all.
const format = new Intl.NumberFormat('en-US');
const count = (number) => format.format(number);
const many = (number, one, more) => `${count(number)} ${number === 1 ? one : more}`;
const percent = (bytes, { total }) => `${(total ? (100 * bytes) / total : 0).toFixed(1)} %`;
const share = (bytes) => `${many(bytes, 'byte', 'bytes')} · ${percent(bytes, held().owned)}`;

// The colours go by rank: the largest source has the first.
const rankOf = (source) => held().ranks[source];

// The text of a source, and its mappings by origin.
function sourceOf(index) {
  const { opened, map } = held();
  let source = opened.get(index);
  if (!source) {
    const content = contentOf(index);
    source = { text: content === null ? null : new Text(content), order: byOrigin(map, index) };
    opened.set(index, source);
  }
  return source;
}
