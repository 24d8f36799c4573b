// Which colour each source has: of those that stand side by side, in the generated text or in the list, each another.
import { held } from './held.js';
import { rankOf } from './sources.js';
export { SHADES, shadeOf };

// More could not be told apart.
const SHADES = 6;

// How often the source of each rank stands beside that of another.
function sides({ map, ranked }) {
  const beside = ranked.map(() => new Map());
  const count = (a, b) => {
    beside[a].set(b, (beside[a].get(b) ?? 0) + 1);
    beside[b].set(a, (beside[b].get(a) ?? 0) + 1);
  };
  for (let rank = 1; rank < ranked.length; rank += 1) count(rank - 1, rank);
  let before = -1;
  for (let i = 0; i < map.count; i += 1) {
    const source = map.source[i];
    if (source < 0) continue;
    if (before >= 0 && source !== before) count(rankOf(before), rankOf(source));
    before = source;
  }
  return beside;
}

// By rank: the largest source is the first to have one. Of those that stand least beside it the one that was taken least is taken.
function shadesOf(bundle) {
  const { ranked } = bundle;
  const beside = sides(bundle);
  const taken = new Array(SHADES).fill(0);
  const shade = new Int8Array(ranked.length).fill(-1);
  for (let rank = 0; rank < ranked.length; rank += 1) {
    const costs = new Array(SHADES).fill(0);
    for (const [other, times] of beside[rank]) if (shade[other] >= 0) costs[shade[other]] += times;
    let best = 0;
    for (let i = 1; i < SHADES; i += 1) {
      if (costs[i] < costs[best] || (costs[i] === costs[best] && taken[i] < taken[best])) best = i;
    }
    shade[rank] = best;
    taken[best] += 1;
  }
  return shade;
}

const shadeOf = (rank) => (held().shades ??= shadesOf(held()))[rank];
