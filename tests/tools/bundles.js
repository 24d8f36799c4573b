'use strict';
// A program over the library for node, bundled by each bundler of this machine with smap external, as docs/LIBRARY.md has
// it, and run: node bundles.js PROGRAM WANTED. One that is not on this machine is said to be so. Modules are looked for
// where NODE_PATH says.
const assert = require('node:assert');
const { spawnSync } = require('node:child_process');
const fs = require('node:fs');
const os = require('node:os');
const path = require('node:path');
const { asDebiansNode } = require('./tools.js');

const page = fs.readFileSync(path.join(__dirname, '../../docs/LIBRARY.md'), 'utf8');
const [, words] = /`esbuild app\.js ([^`]*)`/.exec(page);
const [, externals] = /`externals: (\{[^`]*\})`/.exec(page);

const bundlers = {
  esbuild: (folder, app) => {
    const run = spawnSync('esbuild', [app, ...words.split(' '), `--outfile=${folder}/esbuild.js`], { encoding: 'utf8' });
    if (run.error) return undefined;
    assert.strictEqual(run.status, 0, run.stderr);
    return 'esbuild.js';
  },
  webpack: async (folder, app) => {
    asDebiansNode();
    let webpack;
    try {
      webpack = require('webpack');
    } catch {
      return undefined;
    }
    const options = {
      mode: 'production',
      target: 'node',
      entry: app,
      output: { path: folder, filename: 'webpack.js' },
      externals: new Function(`return (${externals});`)(),
    };
    await new Promise((resolve, reject) => {
      webpack(options, (error, stats) => (error || stats.hasErrors() ? reject(error || new Error(stats.toString())) : resolve()));
    });
    return 'webpack.js';
  },
};

async function bundle(app, wanted) {
  const folder = fs.mkdtempSync(path.join(os.tmpdir(), 'bundles-'));
  let count = 0;
  try {
    for (const [name, make] of Object.entries(bundlers)) {
      const made = await make(folder, app);
      if (!made) {
        console.log(`not on this machine: ${name}`);
        continue;
      }
      assert.ok(fs.statSync(path.join(folder, made)).size < 10000, `${name} bundled what is external`);
      const cwd = path.join(__dirname, '../..');
      const { stdout, stderr } = spawnSync(process.execPath, [path.join(folder, made)], { cwd, encoding: 'utf8' });
      assert.strictEqual(stdout.trim(), wanted, `${name}: ${stderr}`);
      count += 1;
    }
  } finally {
    fs.rmSync(folder, { recursive: true });
  }
  console.log('bundles', count);
}

bundle(path.resolve(process.argv[2]), process.argv[3]);
