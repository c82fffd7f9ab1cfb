'use strict';

// What the tests over real sockets share. No wait is longer than a minute, and what was started is
// ended with the test.

const { spawn } = require('node:child_process');
const fs = require('node:fs');
const net = require('node:net');
const path = require('node:path');
const WebSocket = require('ws');

const STOCK = path.join('/usr/share/nodejs', 'y-websocket', 'bin', 'server.js');

const children = new Set();
process.on('exit', () => children.forEach((child) => child.kill()));

const pause = (ms) => new Promise((resolve) => setTimeout(resolve, ms));

/** Waits until the test holds, for a minute at most. */
async function until(what, test) {
  for (let tries = 0; tries < 3000; tries += 1) {
    if (await test()) {
      return;
    }
    await pause(20);
  }
  throw new Error(`${what} did not come`);
}

/** What comes of this, which has a minute. */
function soon(what, promise) {
  let timer;
  const late = new Promise((_, reject) => {
    timer = setTimeout(() => reject(new Error(`${what} did not come`)), 60000);
  });
  return Promise.race([promise, late]).finally(() => clearTimeout(timer));
}

/** A port at which nobody listens. */
function freePort() {
  return new Promise((resolve, reject) => {
    const server = net.createServer();
    server.on('error', reject);
    server.listen(0, '127.0.0.1', () => {
      const { port } = server.address();
      server.close(() => resolve(port));
    });
  });
}

/** Whether somebody listens at the port. */
function isOpen(port) {
  return new Promise((resolve) => {
    const socket = net.connect(port, '127.0.0.1');
    socket.on('connect', () => {
      socket.destroy();
      resolve(true);
    });
    socket.on('error', () => resolve(false));
  });
}

/** A process that is ended with the test. */
function start(command, words, options) {
  const child = spawn(command, words, options);
  children.add(child);
  child.on('close', () => children.delete(child));
  return child;
}

/** The stock server of y-websocket. */
function stockServer(port) {
  const env = { ...process.env, HOST: '127.0.0.1', PORT: String(port) };
  return start(process.execPath, [STOCK], { env, stdio: 'ignore' });
}

/** Runs the program that `YDOC` names, with these words and an update as the file behind them. */
function ydoc(folder, words, update) {
  const file = path.join(folder, `update-${words[0]}`);
  fs.writeFileSync(file, update);
  const all = [...words, `v1:${file}`];
  const child = start(process.env.YDOC, all, { cwd: folder, stdio: ['ignore', 'pipe', 'pipe'] });
  const [out, err] = [[], []];
  child.stdout.on('data', (bytes) => out.push(bytes));
  child.stderr.on('data', (bytes) => err.push(bytes));
  const ended = new Promise((resolve) => {
    child.on('close', (status) => {
      resolve({ status, out: Buffer.concat(out), err: Buffer.concat(err).toString() });
    });
  });
  return { child, end: () => soon('the end of ydoc', ended) };
}

/** How a connection ends on which this is sent. */
function ending(port, data) {
  return soon('the end of a connection', new Promise((resolve, reject) => {
    const socket = new WebSocket(`ws://127.0.0.1:${port}/`);
    socket.on('open', () => socket.send(data));
    socket.on('close', (code, reason) => resolve(`${code} ${reason}`));
    socket.on('error', reject);
  }));
}

/** Uses up the turns of a server, by asking it who is there. */
async function useUp(port, count) {
  const socket = new WebSocket(`ws://127.0.0.1:${port}/`);
  const closed = new Promise((resolve) => socket.on('close', resolve));
  socket.on('error', () => {});
  socket.on('open', async () => {
    for (let turn = 0; turn < count && socket.readyState === WebSocket.OPEN; turn += 1) {
      socket.send(Buffer.from([3]));
      if (turn % 200 === 0) {
        await pause(1);
      }
    }
  });
  await soon('the end of the turns', closed);
}

module.exports = { ending, freePort, isOpen, pause, soon, start, stockServer, until, useUp, ydoc };
