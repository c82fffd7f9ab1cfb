'use strict';

// The server over real sockets and the stock provider of y-websocket, the page of docs/EDITOR.md, and
// the client and the stock server: `YDOC=PATH node sockets.js`, where PATH is a program that is built.

const assert = require('node:assert');
const fs = require('node:fs');
const os = require('node:os');
const path = require('node:path');
const WebSocket = require('ws');
const Y = require('yjs');
const { WebsocketProvider } = require('y-websocket');
const { ending, freePort, isOpen, pause, start, stockServer, until, useUp, ydoc } = require('./online.js');

const TURNS = 20000;
const PAGE = path.join(__dirname, '..', 'docs', 'EDITOR.md');
const MODULES = '/usr/share/nodejs';

/** A document with a provider, as an editor has it. */
function editor(port, name) {
  const doc = new Y.Doc();
  const options = { WebSocketPolyfill: WebSocket, disableBc: true };
  const provider = new WebsocketProvider(`ws://127.0.0.1:${port}`, 'room', doc, options);
  provider.awareness.setLocalState({ name });
  return { doc, provider, name };
}

/** What a document shows. */
function shown(doc) {
  return JSON.stringify([
    doc.getText('text').toDelta(),
    doc.getMap('map').toJSON(),
    doc.getArray('array').toJSON(),
  ]);
}

/** Whether two documents hold and show the same. */
function same(one, other) {
  const vectors = [one, other].map((doc) => Buffer.from(Y.encodeStateVector(doc)).toString('hex'));
  return vectors[0] === vectors[1] && shown(one) === shown(other);
}

/** Edits of all kinds, in one step after another. */
async function edit({ doc, name }, count) {
  for (let step = 0; step < count; step += 1) {
    const [text, map, array] = [doc.getText('text'), doc.getMap('map'), doc.getArray('array')];
    text.insert(step % (text.length + 1), `${name}${step} `);
    if (step % 3 === 0 && text.length > 4) {
      text.delete(step % (text.length - 2), 2);
    }
    text.format(0, Math.min(3, text.length), { bold: step % 2 === 0 });
    map.set(`key${step % 5}`, { by: name, step });
    array.insert(step % (array.length + 1), [step, `of ${name}`]);
    if (array.length > 6) {
      array.delete(step % 5, 1);
    }
    await pause(10);
  }
}

/** Editors with the stock provider edit one document on our server. */
async function serve(folder, port) {
  const first = new Y.Doc();
  first.getText('text').insert(0, 'served ');
  const server = ydoc(folder, ['serve', `127.0.0.1:${port}`, String(TURNS)], Y.encodeStateAsUpdate(first));
  await until('the server', () => isOpen(port));

  const editors = ['ada', 'bob', 'cleo'].map((name) => editor(port, name));
  const [ada, bob, cleo] = editors;
  await until('the first exchange', () => editors.every(({ provider }) => provider.synced));
  await until('the others\' states', () => ada.provider.awareness.getStates().size === 3);

  await Promise.all(editors.map((one) => edit(one, 12)));
  cleo.provider.disconnect();
  await until('the end of a state', () => ada.provider.awareness.getStates().size === 2);
  const [garbage, text] = [await ending(port, Buffer.from([9, 9, 9])), await ending(port, 'text')];
  assert.strictEqual(garbage, '1008 BadMessage');
  assert.strictEqual(text, '1003 ');
  await Promise.all(editors.map((one) => edit(one, 8)));
  assert.ok(!same(ada.doc, cleo.doc), 'an editor that is offline has what others wrote');
  cleo.provider.connect();
  await until('one document', () => same(ada.doc, bob.doc) && same(ada.doc, cleo.doc));

  await useUp(port, TURNS);
  editors.forEach(({ provider }) => provider.destroy());
  const { status, out, err } = await server.end();
  assert.strictEqual(status, 0, err);
  const written = new Y.Doc();
  Y.applyUpdate(written, out);
  assert.ok(same(written, ada.doc), 'what the server writes is another document');
}

/** The page of ten lines, word by word, as a module beside the packages. */
function page(folder) {
  const [, lines] = /^```js\n([^]*?)^```$/m.exec(fs.readFileSync(PAGE, 'utf8'));
  assert.strictEqual(lines.trimEnd().split('\n').length, 10);
  const place = path.join(folder, 'page');
  fs.mkdirSync(place);
  fs.symlinkSync(MODULES, path.join(place, 'node_modules'));
  fs.writeFileSync(path.join(place, 'page.mjs'), lines);
  // A browser has a WebSocket; Node gets one here.
  fs.writeFileSync(path.join(place, 'browser.cjs'), "globalThis.WebSocket = require('ws');\n");
  const words = ['--preserve-symlinks', '--preserve-symlinks-main', '--require', './browser.cjs', 'page.mjs'];
  const child = start(process.execPath, words, { cwd: place, stdio: ['ignore', 'pipe', 'pipe'] });
  const said = { out: '', err: '' };
  child.stdout.on('data', (bytes) => { said.out += bytes; });
  child.stderr.on('data', (bytes) => { said.err += bytes; });
  return { child, said };
}

/** The page shows what the server of the README has, and the server gets what the page writes. */
async function edited(folder) {
  const port = 12345;
  if (await isOpen(port)) {
    console.log(`interop: the page is not tried, since port ${port} is in use`);
    return;
  }
  const update = fs.readFileSync(path.join(__dirname, '..', 'crates', 'ydoc', 'data', 'abc.bin'));
  const server = ydoc(folder, ['serve', `127.0.0.1:${port}`, String(TURNS)], update);
  await until('the server', () => isOpen(port));
  const { child, said } = page(folder);
  await until('what the page shows', () => said.out.includes('abc') || child.exitCode !== null);
  const other = editor(port, 'other');
  await until('what the page writes', () => other.doc.getText('t').toString() === 'abc!' || child.exitCode !== null);
  other.doc.getText('t').insert(0, 'x');
  await until('what another writes', () => said.out.includes('xabc!') || child.exitCode !== null);
  assert.strictEqual(child.exitCode, null, said.err);
  child.kill();
  other.provider.destroy();
  await useUp(port, TURNS);
  const { status, out, err } = await server.end();
  assert.strictEqual(status, 0, err);
  const written = new Y.Doc();
  Y.applyUpdate(written, out);
  assert.strictEqual(written.getText('t').toString(), 'xabc!');
}

/** Our client meets the stock server. */
async function sync(folder, port) {
  const stock = stockServer(port);
  try {
    await until('the stock server', () => isOpen(port));
    const doc = new Y.Doc();
    const options = { WebSocketPolyfill: WebSocket, disableBc: true };
    const provider = new WebsocketProvider(`ws://127.0.0.1:${port}`, '', doc, options);
    doc.getText('text').insert(0, 'stock ');
    await until('the stock exchange', () => provider.synced);

    const ours = new Y.Doc();
    ours.getText('text').insert(0, 'ours ');
    ours.getMap('map').set('key', [1, 2]);
    const update = Y.encodeStateAsUpdate(ours);
    const { status, out, err } = await ydoc(folder, ['sync', `127.0.0.1:${port}`, '4000000'], update).end();
    assert.strictEqual(status, 0, err);
    const written = new Y.Doc();
    Y.applyUpdate(written, out);
    await until('one document at the stock server', () => same(written, doc));
    assert.ok(shown(doc).includes('ours') && shown(doc).includes('stock'), shown(doc));
    provider.destroy();
  } finally {
    stock.kill();
  }
}

async function main() {
  const folder = fs.mkdtempSync(path.join(os.tmpdir(), 'ydoc-sockets-'));
  await serve(folder, await freePort());
  await edited(folder);
  await sync(folder, await freePort());
  fs.rmSync(folder, { recursive: true });
  console.log('interop: ok, the stock provider, the page and the stock server');
  process.exit(0);
}

main().catch((error) => {
  console.log(`interop: sockets: ${error.stack}`);
  process.exit(1);
});
