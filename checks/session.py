#!/usr/bin/env python3
"""Measures `show` of a text that was written in a long session, beside Yjs, in one run.

    checks/session.py YDOC

YDOC is the built program. Yjs makes the session: 259,778 keystrokes of one client, which types and
deletes in bursts at places that it jumps to. They are shown from a log with an update for each, and
from one file of the whole document. Yjs runs inside node, and its times leave out the start of node
and the reading of files; those of the program have its start and all reading and writing. It is for
measuring only; no check reads it, and without Yjs there is nothing to measure.
"""
import os
import subprocess
import sys
import tempfile
import time

KEYSTROKES = 259_778
TIMES = 3

MAKE = r"""
const fs = require('fs')
const Y = require('yjs')
const [folder, keystrokes] = process.argv.slice(1)
const number = n => { const out = []; while (n > 127) { out.push(n % 128 + 128); n = Math.floor(n / 128) } out.push(n); return Buffer.from(out) }
let seed = 7
const chance = () => { seed = (seed * 48271) % 2147483647; return seed / 2147483647 }
const doc = new Y.Doc()
doc.clientID = 1
const text = doc.getText('t')
const log = []
doc.on('update', update => log.push(number(update.length), Buffer.from(update)))
let made = 0
let at = 0
while (made < Number(keystrokes)) {
  if (chance() < 0.5) at = Math.floor(chance() * text.length)
  const deletes = chance() < 0.3
  const burst = 1 + Math.floor(chance() * 28)
  for (let n = 0; n < burst && made < Number(keystrokes); n++) {
    if (deletes && at === 0) break
    if (deletes) text.delete(--at, 1)
    else text.insert(at++, String.fromCharCode(97 + Math.floor(chance() * 26)))
    made++
  }
}
fs.writeFileSync(folder + '/log', Buffer.concat(log))
fs.writeFileSync(folder + '/file', Y.encodeStateAsUpdate(doc))
"""

LOAD = r"""
const fs = require('fs')
const Y = require('yjs')
const [kind, file] = process.argv.slice(1)
const bytes = new Uint8Array(fs.readFileSync(file))
const updates = []
let at = 0
const number = () => { let n = 0; let by = 1; for (;;) { const b = bytes[at++]; n += (b & 127) * by; by *= 128; if (b < 128) return n } }
if (kind === 'v1') updates.push(bytes)
while (kind === 'log' && at < bytes.length) { const length = number(); updates.push(bytes.slice(at, at + length)); at += length }
const start = process.hrtime.bigint()
const doc = new Y.Doc()
for (const update of updates) Y.applyUpdate(doc, update)
const shown = doc.getText('t').toString()
console.log(Number(process.hrtime.bigint() - start) / 1e9, shown.length)
"""


def node(script, *words):
    env = dict(os.environ, NODE_PATH="/usr/share/nodejs")
    return subprocess.run(["node", "-e", script, *words], env=env, check=True, capture_output=True, text=True).stdout


def program(ydoc, kind, file):
    start = time.monotonic()
    run = subprocess.run(["/usr/bin/time", "-f", "%M", ydoc, "show", "--text", "t", f"{kind}:{file}"], capture_output=True)
    took = time.monotonic() - start
    assert run.returncode == 0, run.stderr
    return took, len(run.stdout), int(run.stderr.split()[-1]) / 1000


def main():
    ydoc = os.path.abspath(sys.argv[1])
    with tempfile.TemporaryDirectory() as folder:
        node(MAKE, folder, str(KEYSTROKES))
        for name, kind in (("log", "log"), ("file", "v1")):
            file = os.path.join(folder, name)
            loads = [node(LOAD, kind, file).split() for _ in range(TIMES)]
            yjs = min(float(seconds) for seconds, _ in loads)
            took, shown, memory = min(program(ydoc, kind, file) for _ in range(TIMES))
            assert shown == int(loads[0][1]) + 1
            print(f"{name}: {os.path.getsize(file):,} bytes; ydoc {took:.2f} s, {memory:.0f} MB; Yjs {yjs:.2f} s; {yjs / took:.1f} times")


if __name__ == "__main__":
    main()
