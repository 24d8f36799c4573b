#!/usr/bin/env node
// Times what is asked of maps in node, one call after the other, of smap and of trace-mapping by turns: node small-calls.js MAP.. prints a
// row for each map and call, with the least nanoseconds of ROUNDS rounds (1,000 if not given): a look-up of each mapping in order, and of
// mappings by chance; and, for each segment, decodedMappings, and that with reading.
'use strict';

const fs = require('fs');
const path = require('path');

const libraries = { smap: require('../../lib/node'), trace: require('@jridgewell/trace-mapping') };
const rounds = Number(process.env.ROUNDS || 1000);
const now = () => Number(process.hrtime.bigint());
const AT_ONCE = 1000;

// So many positions at which mappings begin, of a list that is gone over again and again or drawn from.
function positions(text) {
  const map = new libraries.smap.TraceMap(text);
  const all = [...map.mappings()].map(({ generatedLine, generatedColumn }) => ({ line: generatedLine, column: generatedColumn }));
  let seed = 1;
  const drawn = () => {
    seed = (Math.imul(seed, 1103515245) + 12345) & 0x7fffffff;
    return all[(seed >>> 8) % all.length];
  };
  return { segments: all.length, order: Array.from({ length: AT_ONCE }, (_, i) => all[i % all.length]), chance: Array.from({ length: AT_ONCE }, drawn) };
}

function lookUps({ originalPositionFor }, map, needles) {
  const begin = now();
  for (const needle of needles) originalPositionFor(map, needle);
  return (now() - begin) / needles.length;
}

function decoding({ TraceMap, decodedMappings }, text, segments) {
  const begin = now();
  const map = new TraceMap(text);
  const read = now();
  decodedMappings(map);
  const end = now();
  if (map.close) map.close();
  return [(end - read) / segments, (end - begin) / segments];
}

for (const file of process.argv.slice(2)) {
  const text = fs.readFileSync(file, 'utf8');
  const { segments, order, chance } = positions(text);
  const maps = Object.fromEntries(Object.entries(libraries).map(([name, { TraceMap }]) => [name, new TraceMap(text)]));
  const least = {};
  for (let round = 0; round < rounds; round++) {
    for (const [name, library] of Object.entries(libraries)) {
      const told = [lookUps(library, maps[name], order), lookUps(library, maps[name], chance), ...decoding(library, text, segments)];
      least[name] = told.map((time, i) => Math.min(time, (least[name] || told)[i]));
    }
  }
  ['in order', 'by chance', 'decodedMappings', 'and reading'].forEach((call, i) => {
    const [ours, theirs] = [least.smap[i], least.trace[i]];
    console.log(`${path.basename(file)} ${segments}|${call}|${ours.toFixed(0)}|${theirs.toFixed(0)}|${(ours / theirs).toFixed(2)}`);
  });
}
