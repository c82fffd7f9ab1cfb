'use strict';

// What the server costs: `YDOC=PATH node speed.js`, where PATH is a program that is built. A document
// of 20 MiB is sent to new clients, beside the stock server of y-websocket, in one run; and, where
// there is strace, the system calls of rounds over 300 sessions are counted.

const assert = require('node:assert');
const { spawnSync } = require('node:child_process');
const fs = require('node:fs');
const os = require('node:os');
const path = require('node:path');
const WebSocket = require('ws');
const Y = require('yjs');
const { WebsocketProvider } = require('y-websocket');
const { freePort, isOpen, pause, soon, stockServer, until, ydoc } = require('./online.js');

const MIB = 1 << 20;
const TURNS = 4000000;
const STEP1 = Buffer.from([0, 0, 1, 0]);

/** A document whose update has 20 MiB: one text, or pieces that never join. */
function documentOf(piece) {
  const doc = new Y.Doc();
  const text = doc.getText('text');
  doc.transact(() => {
    for (let made = 0; made < 20 * MIB; made += piece) {
      text.insert(0, 'x'.repeat(piece));
    }
  });
  return doc;
}

/** How long a new client waits for all, in milliseconds. */
function wait(port, size) {
  return soon('a document', new Promise((resolve, reject) => {
    const socket = new WebSocket(`ws://127.0.0.1:${port}/`, { perMessageDeflate: false });
    let begun;
    socket.on('error', reject);
    socket.on('open', () => {
      begun = performance.now();
      socket.send(STEP1);
    });
    socket.on('message', (bytes) => {
      if (bytes.length >= size) {
        resolve(performance.now() - begun);
        socket.terminate();
      }
    });
  }));
}

/** The median of how long nine new clients wait at each of two servers, which take turns. */
async function waits(ports, size) {
  const all = ports.map(() => []);
  for (let times = 0; times < 9; times += 1) {
    for (const [at, port] of ports.entries()) {
      all[at].push(await wait(port, size));
    }
  }
  return all.map((some) => some.sort((a, b) => a - b)[4]);
}

/** Both servers send one document. */
async function sent(folder, what, piece) {
  const doc = documentOf(piece);
  const update = Y.encodeStateAsUpdate(doc);
  const [ours, stock] = [await freePort(), await freePort()];
  const server = ydoc(folder, ['serve', `127.0.0.1:${ours}`, String(TURNS)], update);
  const other = stockServer(stock);
  await until('both servers', async () => await isOpen(ours) && isOpen(stock));
  const options = { WebSocketPolyfill: WebSocket, disableBc: true };
  const provider = new WebsocketProvider(`ws://127.0.0.1:${stock}`, '', doc, options);
  await until('the document at the stock server', () => provider.synced);
  await wait(stock, update.length);
  const [mine, theirs] = await waits([ours, stock], update.length);
  console.log(`  ${what}, ${update.length} bytes: ${mine.toFixed(0)} ms, the stock server ${theirs.toFixed(0)} ms`);
  provider.destroy();
  other.kill();
  server.child.kill();
  return mine / theirs;
}

/** The calls of the system that a process makes in two seconds, by their names. */
function calls(pid) {
  const words = ['2', 'strace', '-qq', '-f', '-c', '-p', String(pid)];
  const { stderr } = spawnSync('timeout', ['-s', 'INT', ...words], { encoding: 'utf8' });
  const rows = [...stderr.matchAll(/^ *[\d.]+ +[\d.]+ +\d+ +(\d+)(?: +\d+)? +(\w+)$/gm)];
  return Object.fromEntries(rows.map(([, count, name]) => [name, Number(count)]));
}

/** What rounds over idle sessions ask of the system. */
async function idle(folder, count) {
  const doc = new Y.Doc();
  doc.getText('text').insert(0, 'x');
  const port = await freePort();
  const server = ydoc(folder, ['serve', `127.0.0.1:${port}`, String(TURNS)], Y.encodeStateAsUpdate(doc));
  await until('the server', () => isOpen(port));
  const sockets = Array.from({ length: count }, () => new WebSocket(`ws://127.0.0.1:${port}/`));
  await until('the sessions', () => sockets.every(({ readyState }) => readyState === WebSocket.OPEN));
  await pause(500);
  const made = calls(server.child.pid);
  console.log(`  ${count} idle sessions: ${JSON.stringify(made)}`);
  const { accept4, recvfrom, total, ...others } = made;
  const clocks = others.clock_gettime ?? 0;
  assert.ok(Object.keys(others).every((name) => /clock|restart|detached/.test(name)), 'other calls than looks');
  assert.ok(Math.abs(recvfrom / accept4 - count) < 0.1 * count, 'not one call a session');
  assert.ok(clocks <= accept4 / 500, 'a round asks for the time');
  sockets.forEach((socket) => socket.terminate());
  server.child.kill();
}

/** How long 1,000 turns take where nobody comes. */
async function quiet(folder) {
  const doc = new Y.Doc();
  const port = await freePort();
  const begun = performance.now();
  await ydoc(folder, ['serve', `127.0.0.1:${port}`, '1000'], Y.encodeStateAsUpdate(doc)).end();
  console.log(`  1,000 idle turns without a session: ${(performance.now() - begun).toFixed(0)} ms`);
}

/** How long a change takes from one of many sessions to all others. */
async function changes(folder, count) {
  const doc = new Y.Doc();
  doc.getText('text').insert(0, 'x');
  const port = await freePort();
  const server = ydoc(folder, ['serve', `127.0.0.1:${port}`, String(TURNS)], Y.encodeStateAsUpdate(doc));
  await until('the server', () => isOpen(port));
  const sockets = Array.from({ length: count }, () => new WebSocket(`ws://127.0.0.1:${port}/`));
  await until('the sessions', () => sockets.every(({ readyState }) => readyState === WebSocket.OPEN));
  const writer = new Y.Doc();
  const times = [];
  for (let change = 0; change < 5; change += 1) {
    let heard = 0;
    sockets.slice(1).forEach((socket) => {
      socket.removeAllListeners('message');
      socket.on('message', (bytes) => { heard += bytes[1] === 2 ? 1 : 0; });
    });
    const updates = [];
    writer.once('update', (update) => updates.push(update));
    writer.getText('text').insert(0, 'y');
    const [update] = updates;
    const begun = performance.now();
    sockets[0].send(Buffer.concat([Buffer.from([0, 2, update.length]), update]));
    await until('a change at all', () => heard === count - 1);
    times.push(performance.now() - begun);
    await pause(1000);
  }
  console.log(`  a change reaches ${count - 1} others in ${times.map((ms) => ms.toFixed(0)).join(', ')} ms`);
  sockets.forEach((socket) => socket.terminate());
  server.child.kill();
}

async function main() {
  const folder = fs.mkdtempSync(path.join(os.tmpdir(), 'ydoc-speed-'));
  await quiet(folder);
  const ratios = [await sent(folder, 'one text', 20 * MIB), await sent(folder, 'pieces of 8,192 units', 8192)];
  await changes(folder, 300);
  if (spawnSync('strace', ['-V']).error === undefined) {
    await idle(folder, 300);
  }
  fs.rmSync(folder, { recursive: true });
  assert.ok(ratios.every((ratio) => ratio <= 2), `more than twice the time: ${ratios}`);
  console.log('interop: ok, speed');
  process.exit(0);
}

main().catch((error) => {
  console.log(`interop: speed: ${error.stack}`);
  process.exit(1);
});
