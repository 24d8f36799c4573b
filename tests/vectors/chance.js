// Random numbers, the same at each run.
'use strict';

function chanceFrom(start) {
  let seed = start;

  // From 0 up to and without 1.
  function chance() {
    seed = (seed + 0x6d2b79f5) | 0;
    let t = Math.imul(seed ^ (seed >>> 15), 1 | seed);
    t = (t + Math.imul(t ^ (t >>> 7), 61 | t)) ^ t;
    return ((t ^ (t >>> 14)) >>> 0) / 4294967296;
  }

  function below(n) {
    return Math.floor(chance() * n);
  }

  function pick(list) {
    return list[below(list.length)];
  }

  return { chance, below, pick };
}

module.exports = { chanceFrom };
