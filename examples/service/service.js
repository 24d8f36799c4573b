'use strict';
// Symbolicates events over HTTP, by the maps in a folder of releases, as service.py does, whose head says what is asked and answered:
//
//     node service.js PREFIX FOLDER [PORT [MEGABYTES]]
//
// It needs smap's package for node.
const http = require('node:http');
const { Maps } = require('smap');

const MOST_BYTES = 1 << 20;
const MOST_ANSWER = 16 << 20;
const MOST_NAMES = 64 << 20;
const MOST_FRAMES = 1000;
const MOST_LINE = 500;
const MOST_NUMBER = 2 ** 31;
const MOST_CLIENTS = 64;
// What is not there, or has failed, is looked for again after so many seconds, and a file for what is new in it.
const LATE = 30;
// A client that takes longer for a whole request, or for an answer, is left.
const MILLISECONDS = 10000;

// What is answered in place of frames: a status and a reason.
class Wrong extends Error {
  constructor(status, reason) {
    super(reason);
    this.status = status;
  }
}

// The client went away.
class Gone extends Error {}

// The frames of an event, each with URL, line and column from 1.
function framesOf(body) {
  let event;
  try {
    event = JSON.parse(body);
  } catch (error) {
    throw new Wrong(400, 'the event is no JSON');
  }
  const frames = event && event.frames;
  if (!Array.isArray(frames)) throw new Wrong(400, 'the event has no list `frames`');
  if (frames.length > MOST_FRAMES) throw new Wrong(400, `the event has more than ${MOST_FRAMES} frames`);
  return frames.map(frameOf);
}

const isNumber = (value) => Number.isInteger(value) && value >= 1 && value <= MOST_NUMBER;

function frameOf(frame, number) {
  const { filename, lineno, colno } = frame || {};
  if (typeof filename !== 'string') throw new Wrong(400, `frame ${number} has no text \`filename\``);
  if (!isNumber(lineno) || !isNumber(colno)) throw new Wrong(400, `frame ${number} has no \`lineno\` and \`colno\` from 1 to ${MOST_NUMBER}`);
  return { filename, lineno, colno };
}

// A frame with its original.
function symbolicated(maps, { filename, lineno, colno }) {
  const place = maps.lookUp(filename, lineno, colno - 1);
  if (!place) return { filename, lineno, colno, original: null };
  const { source, line, column, name, ignored, index } = place;
  const whole = maps.context(filename, index, line);
  const context = whole && shortened(whole);
  return { filename, lineno, colno, original: { source, lineno: line, colno: column + 1, name, ignored, context } };
}

// Lines of which none has too many bytes, and whether one had.
function shortened({ before, line, after }) {
  const cut = [...before, line, ...after].some((each) => Buffer.byteLength(each) > MOST_LINE);
  return { before: before.map(beginOf), line: beginOf(line), after: after.map(beginOf), cut };
}

function beginOf(line) {
  const bytes = Buffer.from(line);
  let end = MOST_LINE;
  // A character that does not fit is left out whole.
  while ((bytes[end] & 0xc0) === 0x80) end -= 1;
  return bytes.toString('utf8', 0, end);
}

// The text of the frames with their originals, which is made no longer than it may be.
function answerTo(maps, frames) {
  const parts = [];
  let size = 0;
  for (const frame of frames) {
    const part = JSON.stringify(symbolicated(maps, frame));
    size += Buffer.byteLength(part);
    if (size > MOST_ANSWER) throw new Wrong(413, `the answer has more than ${MOST_ANSWER} bytes`);
    parts.push(part);
  }
  return `{"frames":[${parts.join(',')}]}`;
}

// The body of any request: what were left of one would be taken for the next request. The server itself refuses a second length,
// and one that is no number.
function bodyOf(request) {
  const { 'content-length': length = request.method === 'GET' ? '0' : undefined, 'transfer-encoding': coding } = request.headers;
  if (coding !== undefined) throw new Wrong(411, 'the request is in chunks');
  if (length === undefined || length.length > 15) throw new Wrong(400, 'the request has not one length');
  if (Number(length) > MOST_BYTES) throw new Wrong(413, `the event has more than ${MOST_BYTES} bytes`);
  return new Promise((resolve, reject) => {
    const parts = [];
    request.on('data', (part) => parts.push(part));
    request.on('end', () => resolve(Buffer.concat(parts).toString()));
    request.on('close', () => reject(new Gone()));
  });
}

function textFor(service, { method, url }, body) {
  const { maps, refused } = service;
  if (method === 'GET' && url === '/health') return JSON.stringify({ maps: maps.size, bytes: maps.nbytes, refused });
  if (method === 'POST' && url === '/symbolicate') return answerTo(maps, framesOf(body));
  throw new Wrong(404, 'there is no such path');
}

async function answerRequest(service, request, response) {
  const answer = (status, text, headers) => {
    const late = setTimeout(() => response.destroy(), MILLISECONDS);
    response.on('close', () => clearTimeout(late));
    response.writeHead(status, { 'Content-Type': 'application/json', 'Content-Length': Buffer.byteLength(text), ...headers });
    response.end(text);
  };
  let isRead = false;
  try {
    if (!['GET', 'POST'].includes(request.method)) throw new Wrong(501, 'there is no such method');
    const body = await bodyOf(request);
    isRead = true;
    answer(200, textFor(service, request, body));
  } catch (error) {
    if (error instanceof Gone) return;
    const [status, reason] = error instanceof Wrong ? [error.status, error.message] : [500, `${error.name} in the service`];
    answer(status, JSON.stringify({ reason }), isRead ? {} : { Connection: 'close' });
  }
}

// What the server itself refuses, before the headers are read.
function refuse(error, socket) {
  if (!socket.writable || error.code === 'ECONNRESET' || error.code === 'ERR_HTTP_REQUEST_TIMEOUT') return socket.destroy();
  const reason = /CONTENT_LENGTH/.test(error.code) ? 'the request has not one length' : 'the request is no HTTP';
  const text = JSON.stringify({ reason });
  const head = ['HTTP/1.1 400 Bad Request', 'Content-Type: application/json', `Content-Length: ${text.length}`, 'Connection: close'];
  return socket.end([...head, '', text].join('\r\n'), () => socket.destroy());
}

function main(prefix, folder, port = '8000', megabytes = '200') {
  const service = { refused: 0 };
  const tell = (url, error) => {
    service.refused += 1;
    console.error(`refused: ${url}: ${`${error.message}`.split('\n')[0]}`);
  };
  service.maps = Maps.folder(prefix, folder, { maxBytes: Number(megabytes) * 2 ** 20, maxNames: MOST_NAMES, refused: tell, noneFor: LATE, freshFor: LATE });
  const [requestTimeout, headersTimeout, keepAliveTimeout] = Array(3).fill(MILLISECONDS);
  const times = { requestTimeout, headersTimeout, keepAliveTimeout, connectionsCheckingInterval: 500 };
  const server = http.createServer(times, (request, response) => answerRequest(service, request, response));
  server.maxConnections = MOST_CLIENTS;
  server.on('clientError', refuse);
  server.listen(Number(port), '127.0.0.1', () => console.log(`http://127.0.0.1:${server.address().port}`));
}

if (process.argv.length < 4 || process.argv.length > 6) {
  console.error('service.js PREFIX FOLDER [PORT [MEGABYTES]]');
  process.exitCode = 2;
} else {
  main(...process.argv.slice(2));
}
