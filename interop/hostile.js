'use strict';

// Hostile peers of the server: `YDOC=PATH node hostile.js`, where PATH is a program that is built.
// Each is tried beside an honest session, which has to be served all the while. It opens some 1,100
// files.

const assert = require('node:assert');
const crypto = require('node:crypto');
const fs = require('node:fs');
const net = require('node:net');
const os = require('node:os');
const path = require('node:path');
const WebSocket = require('ws');
const Y = require('yjs');
const { ending, freePort, isOpen, pause, soon, until, useUp, ydoc } = require('./online.js');

const TURNS = 40000;
// The text of the document. Asked for 12 times, it is more than 50 MB.
const UNITS = 5000000;
// How many sessions a server has at most.
const MOST = 1024;
const STEP1 = Buffer.from([0, 0, 1, 0]);
// Asks who is there. Its answer, the entries of nobody, is short.
const ASKS = Buffer.from([3]);

/** A connection whose handshake is made by hand, and what came on it. */
async function byHand(port) {
  const socket = net.connect(port, '127.0.0.1');
  const peer = { socket, came: Buffer.alloc(0), isClosed: false };
  socket.on('error', () => {});
  socket.on('close', () => { peer.isClosed = true; });
  const key = crypto.randomBytes(16).toString('base64');
  socket.write(`GET /room HTTP/1.1\r\nHost: x\r\nUpgrade: websocket\r\nConnection: Upgrade\r\n` +
    `Sec-WebSocket-Key: ${key}\r\nSec-WebSocket-Version: 13\r\n\r\n`);
  await soon('a handshake', new Promise((resolve) => socket.once('data', resolve)));
  socket.on('data', (bytes) => { peer.came = Buffer.concat([peer.came, bytes]); });
  return peer;
}

/** The code of the close frame that came last, or none. */
function codeOf({ came }) {
  const at = came.lastIndexOf(0x88);
  return at < 0 ? null : came.readUInt16BE(at + 2);
}

/** An honest session, and how long it waits for an answer. */
async function honest(port) {
  const socket = new WebSocket(`ws://127.0.0.1:${port}/`);
  await soon('an honest session', new Promise((resolve, reject) => {
    socket.on('open', resolve);
    socket.on('error', reject);
  }));
  const answered = () => soon('an answer to the honest session', new Promise((resolve) => {
    const begun = Date.now();
    const hear = (bytes) => {
      if (bytes[0] === 1) {
        socket.off('message', hear);
        resolve(Date.now() - begun);
      }
    };
    socket.on('message', hear);
    socket.send(ASKS);
  }));
  return { socket, answered };
}

/** What comes of a peer is as it is to be, and the honest session is served. */
async function meets(what, came, wanted, session) {
  assert.deepStrictEqual(came, wanted, what);
  console.log(`  ${what}: ${JSON.stringify(came)}; the honest session waited ${await session.answered()} ms`);
}

/** Peers that say nothing, and how many of them were dropped. */
function silentPeers(port, count) {
  const peers = { dropped: 0 };
  for (let made = 0; made < count; made += 1) {
    net.connect(port, '127.0.0.1').on('close', () => { peers.dropped += 1; }).on('error', () => {});
  }
  return peers;
}

/** The code of the close frame that a connection by hand gets on which these bytes are sent. */
async function codeFor(port, what, bytes) {
  const peer = await byHand(port);
  peer.socket.write(Buffer.from(bytes));
  await until(`the close after ${what}`, () => peer.isClosed);
  return codeOf(peer);
}

/** Frames that break the rules, one after another. */
async function frames(port, session) {
  const half = await byHand(port);
  half.socket.write(Buffer.from([0x82, 0xfe, 0x10]));
  await session.answered();
  await meets('half a frame, and it stays open', !half.isClosed, true, session);

  const huge = [0x82, 0xff, 0, 0, 1, 0, 0, 0, 0, 0, 1, 2, 3, 4];
  await meets('a frame of 2^40 bytes', await codeFor(port, 'a huge frame', huge), 1009, session);
  const long = [0x82, 0xff, 0, 0, 0, 0, 0x10, 0, 0, 0x41, 1, 2, 3, 4];
  await meets('a frame of one byte too many', await codeFor(port, 'a long frame', long), 1009, session);
  await meets('a frame without a mask', await codeFor(port, 'a bare frame', [0x82, 1, 3]), 1002, session);
  await meets('bytes that are no message', await ending(port, Buffer.from([9, 9])), '1008 BadMessage', session);
  await meets('a text', await ending(port, 'text'), '1003 ', session);

  const leaver = await byHand(port);
  leaver.socket.write(Buffer.concat([
    Buffer.from([0x82, 0xff, 0, 0, 0, 0, 0, 16, 0, 0, 1, 2, 3, 4]), Buffer.alloc(5000)]));
  await session.answered();
  leaver.socket.destroy();
  await meets('a peer that leaves in the midst of a message', leaver.socket.destroyed, true, session);

  const http = net.connect(port, '127.0.0.1');
  http.write('GET / HTTP/1.1\r\nHost: x\r\n\r\n');
  await soon('the end of plain HTTP',
    new Promise((resolve) => http.on('close', resolve).on('error', () => {}).resume()));
  await meets('plain HTTP', http.destroyed, true, session);
  return half;
}

/** A peer that asks for all, again and again, and reads nothing. */
async function deaf(port, session) {
  const peer = await byHand(port);
  peer.socket.pause();
  const mask = Buffer.from([0x82, 0x80 + STEP1.length, 0, 0, 0, 0]);
  for (let times = 0; times < 12; times += 1) {
    peer.socket.write(Buffer.concat([mask, STEP1]));
  }
  await pause(20);
  await meets('a peer that is sent 60 MB and reads nothing', peer.isClosed, false, session);
  // What the system took for it may still come, and then the end.
  peer.socket.resume();
  await until('the end of the deaf peer', () => peer.isClosed);
  assert.ok(peer.came.length < 12 * UNITS, 'all was sent to a peer that reads nothing');
}

/** More sessions than a server has. These stand already. */
async function crowd(port, session, standing) {
  const many = [];
  const ends = {};
  for (let count = 0; count < MOST; count += 1) {
    const socket = new WebSocket(`ws://127.0.0.1:${port}/`);
    socket.on('error', () => {});
    socket.on('close', (code, reason) => {
      const end = `${code} ${reason}`;
      ends[end] = (ends[end] ?? 0) + 1;
    });
    many.push(socket);
    if (count % 32 === 0) {
      await pause(20);
    }
  }
  const opened = () => many.filter(({ readyState }) => readyState === WebSocket.OPEN).length;
  const ended = () => Object.values(ends).reduce((sum, count) => sum + count, 0);
  await until('the end of 1,024 handshakes', () => opened() + ended() === MOST && ended() >= standing);
  const wanted = [MOST - standing, { '1008 TooManySessions': standing }];
  await meets(`1,024 sessions beside ${standing}`, [opened(), ends], wanted, session);
  many.forEach((socket) => socket.terminate());
}

async function main() {
  const folder = fs.mkdtempSync(path.join(os.tmpdir(), 'ydoc-hostile-'));
  const port = await freePort();
  const doc = new Y.Doc();
  doc.getText('text').insert(0, 'x'.repeat(UNITS));
  const server = ydoc(folder, ['serve', `127.0.0.1:${port}`, String(TURNS)], Y.encodeStateAsUpdate(doc));
  await until('the server', () => isOpen(port));
  const session = await honest(port);

  const silent = silentPeers(port, 20);
  const half = await frames(port, session);
  await deaf(port, session);
  await crowd(port, session, 2);
  await until('the end of silent peers', () => silent.dropped === 20);
  await meets('20 peers that said nothing were dropped', silent.dropped, 20, session);
  half.socket.destroy();

  await useUp(port, TURNS);
  const { status, out, err } = await server.end();
  assert.strictEqual(status, 0, err);
  const written = new Y.Doc();
  Y.applyUpdate(written, out);
  assert.strictEqual(written.getText('text').length, UNITS);
  fs.rmSync(folder, { recursive: true });
  console.log('interop: ok, hostile peers');
  process.exit(0);
}

main().catch((error) => {
  console.log(`interop: hostile: ${error.stack}`);
  process.exit(1);
});
