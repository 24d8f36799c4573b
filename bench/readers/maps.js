'use strict';
// What maps.py does, in node. Behind it, for how many milliseconds of the processor the loop is held at most while a map of 28 MB is loaded.
const fs = require('node:fs');
const { Maps, rewrite, rewriteAsync } = require('smap');

const MAP = '{"version":3,"sources":["https://e.test/x.ts"],"names":["n"],"mappings":"AAAAA"}';
const seconds = ({ user, system }) => (user + system) / 1e6;
const spentHere = () => Number(fs.readFileSync('/proc/thread-self/schedstat', 'utf8').split(' ')[0]) / 1e6;

function rewritten(lines, urls, maxBytes, given) {
  const text = Array.from({ length: lines }, (_, i) => `f@https://e.test/${i % urls}.js:1:1\n`).join('');
  const begin = process.cpuUsage();
  const maps = new Maps({ load: () => given, maxBytes });
  if (rewrite(maps, text).length < lines) throw new Error('too short');
  maps.close();
  console.log(seconds(process.cpuUsage(begin)).toFixed(3));
}

async function held(map) {
  let [most, last, isOver] = [0, spentHere(), false];
  const tick = () => {
    most = Math.max(most, spentHere() - last);
    last = spentHere();
    if (!isOver) setImmediate(tick);
  };
  await new Promise((resolve) => setTimeout(resolve, 100));
  last = spentHere();
  tick();
  await rewriteAsync(new Maps({ loadAsync: async () => map, maxBytes: 1e9 }), 'f@a.js:1:1\n');
  isOver = true;
  console.log(most.toFixed(1));
}

rewritten(16000, 2, 0, MAP);
rewritten(40000, 40000, 1 << 20, null);
rewritten(40000, 40000, 1 << 30, MAP);
const mappings = 'AAAA,CAAC,EAAE,GAAG;'.repeat(800000);
const large = JSON.stringify({ version: 3, sources: ['a.ts'], sourcesContent: ['x\n'.repeat(4e6)], names: [], mappings });
// As one that is read from a file: a text that was put together is made one when it is first read.
held(Buffer.from(large).toString());
