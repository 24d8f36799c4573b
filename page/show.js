// What is shown of a bundle: its name, counts, sources, areas, texts, and whether its map fits.
import { elementOf } from './elements.js';
import { bundles, held } from './held.js';
import { showMisfits } from './misfits.js';
import { bytesOf, contentOf, isIgnored, many, nameOf, resolvedOf, share } from './sources.js';
import { treeOf } from './tree.js';
import { visible } from './units.js';
import { areas, list, panes, showOpen } from './views.js';
export { showBundle, showChoice };

function showBundle() {
  const { name, owned, generated, map, ranked, index } = held();
  document.title = `${visible(name)} · smap`;
  elementOf('title').textContent = visible(name);
  elementOf('bundles').value = String(index);
  elementOf('facts').textContent = [
    many(owned.total, 'byte', 'bytes'),
    many(generated.lines.count, 'line', 'lines'),
    many(map.count, 'mapping', 'mappings'),
    many(ranked.length, 'source', 'sources'),
  ].join(' · ');
  elementOf('generated').querySelector('.name').textContent = visible(name);
  elementOf('unmapped').textContent = `unmapped ${share(owned.unmapped)}`;
  const sources = ranked.map((source) => ({
    index: source,
    name: nameOf(source),
    resolved: resolvedOf(source),
    bytes: bytesOf(source),
    isIgnored: isIgnored(source),
    hasContent: contentOf(source) !== null,
  }));
  elementOf('filter').value = '';
  list.show(sources);
  areas.show(treeOf(sources, owned.unmapped));
  panes.generated.show(generated);
  showOpen();
  showMisfits();
}

// The choice among several bundles.
function showChoice() {
  const choice = elementOf('bundles');
  choice.hidden = bundles.length === 1;
  elementOf('title').classList.toggle('unseen', bundles.length > 1);
  for (const { name, index } of bundles) {
    const option = document.createElement('option');
    choice.append(Object.assign(option, { value: String(index), textContent: visible(name) }));
  }
}
