'use strict';
// Asks a service of examples/service/ for events from clients that each keep a connection: node load.js PORT PREFIX FOLDER CLIENTS EVENTS. Frames
// are of all maps of the folder, half of them of a tenth of the maps. Prints how many events were answered in a second, and how many frames
// had an original.
const fs = require('node:fs');
const http = require('node:http');
const path = require('node:path');

const [port, prefix, folder, clients, events] = process.argv.slice(2);
const FRAMES = 10;

const scripts = fs.readdirSync(folder).flatMap((release) => fs.readdirSync(path.join(folder, release)).map((name) => `${prefix}${release}/${name.slice(0, -4)}`));
let seed = 7;
// By the high bits of the seed: its low bits come again after a few, and only some of the maps would be asked for.
const below = (most) => Math.floor(((seed = (Math.imul(seed, 1664525) + 1013904223) >>> 0) / 2 ** 32) * most);
const often = Math.max(1, Math.floor(scripts.length / 10));
const frame = () => ({ filename: scripts[below(below(2) ? often : scripts.length)], lineno: 1 + below(400), colno: 1 + below(60) });
const bodies = Array.from({ length: Number(events) }, () => JSON.stringify({ frames: Array.from({ length: FRAMES }, frame) }));

const agent = new http.Agent({ keepAlive: true, maxSockets: Number(clients) });
function ask(body) {
  return new Promise((resolve, reject) => {
    const options = { port, method: 'POST', path: '/symbolicate', agent, headers: { 'Content-Length': Buffer.byteLength(body) } };
    const request = http.request(options, (response) => {
      const parts = [];
      response.on('data', (part) => parts.push(part)).on('end', () => resolve(JSON.parse(Buffer.concat(parts))));
    });
    request.on('error', reject).end(body);
  });
}

(async () => {
  let found = 0;
  const begun = process.hrtime.bigint();
  const next = async () => {
    for (let body; (body = bodies.pop()) !== undefined; ) {
      const { frames } = await ask(body);
      found += frames.filter(({ original }) => original).length;
    }
  };
  await Promise.all(Array.from({ length: Number(clients) }, next));
  const seconds = Number(process.hrtime.bigint() - begun) / 1e9;
  agent.destroy();
  console.log(`${(events / seconds).toFixed(0)} ${found}`);
})();
