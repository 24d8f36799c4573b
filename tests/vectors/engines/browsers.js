'use strict';
// Opens pages in browsers without a screen. They ask this program, as their proxy, for every URL, so no name is looked up.

const fs = require('fs');
const http = require('http');
const os = require('os');
const path = require('path');
const { spawn } = require('child_process');

const SECONDS = 600;
const wait = (ms) => new Promise((done) => setTimeout(done, ms));
const starts = (program, args, env = {}) => spawn('nice', ['-n', '5', program, ...args], {
  detached: true, stdio: process.env.TELL ? 'inherit' : 'ignore', env: { ...process.env, ...env },
});

function chromium(url, port, folder) {
  const proxy = [`--proxy-server=127.0.0.1:${port}`, '--proxy-bypass-list=<-loopback>'];
  const flags = ['--headless=new', '--no-sandbox', '--disable-gpu', '--no-first-run', `--user-data-dir=${folder}`];
  return starts('chromium', [...flags, ...proxy, url]);
}

function firefox(url, port, folder) {
  const preferences = {
    'network.proxy.type': 1, 'network.proxy.http': '127.0.0.1', 'network.proxy.http_port': port,
    'dom.security.https_first': false, 'dom.security.https_only_mode': false, 'browser.shell.checkDefaultBrowser': false,
    'datareporting.policy.dataSubmissionEnabled': false, 'app.update.enabled': false,
    'network.captive-portal-service.enabled': false, 'browser.aboutwelcome.enabled': false,
    'termsofuse.bypassNotification': true,
  };
  const lines = Object.entries(preferences).map(([key, value]) => `user_pref("${key}", ${JSON.stringify(value)});\n`);
  fs.writeFileSync(path.join(folder, 'user.js'), lines.join(''));
  const env = { HOME: folder, MOZ_CRASHREPORTER_DISABLE: '1' };
  return starts('firefox-esr', ['--headless', '--no-remote', '--profile', folder, url], env);
}

// Opens a page in the browser that `start` starts, and gives the first texts that are posted to its origin, so many. What a
// URL has is `given`: its type and text, or nothing.
async function posted(start, page, given, count = 1) {
  const texts = [];
  let came = () => {};
  const server = http.createServer((request, response) => {
    if (process.env.TELL) console.error(request.method, request.url);
    if (request.method === 'POST' && request.url.startsWith(new URL(page).origin)) {
      let text = '';
      request.setEncoding('utf8');
      request.on('data', (part) => { text += part; });
      request.on('end', () => { response.end(); texts.push(text); came(); });
      return;
    }
    const [type, text] = (request.url.startsWith('http') && given(request.url)) || [];
    const open = { 'cache-control': 'no-store', 'access-control-allow-origin': '*' };
    response.writeHead(type ? 200 : 404, { 'content-type': type ?? 'text/plain', ...open });
    response.end(text ?? '');
  });
  server.on('connect', (_, socket) => socket.destroy());
  await new Promise((done) => server.listen(0, '127.0.0.1', done));
  const folder = fs.mkdtempSync(path.join(os.tmpdir(), 'engines-'));
  const child = start(page, server.address().port, folder);
  try {
    while (texts.length < count) {
      await new Promise((done, failed) => {
        const late = () => failed(new Error(`${page}: ${texts.length} of ${count} reports, and none in ${SECONDS} seconds`));
        const end = setTimeout(late, SECONDS * 1000);
        came = () => { clearTimeout(end); done(); };
      });
    }
  } finally {
    process.kill(-child.pid, 'SIGKILL');
    server.closeAllConnections();
    server.close();
    await wait(500);
    fs.rmSync(folder, { recursive: true, force: true });
  }
  return texts;
}

module.exports = { chromium, firefox, posted };
