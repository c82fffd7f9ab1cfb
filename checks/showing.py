#!/usr/bin/env python3
"""Measures `show` of a large tree, a large map and a long list of types beside Yjs, in one run.

    checks/showing.py YDOC

YDOC is the built program. Yjs writes the files, loads each again and makes its text or its JSON. It
runs inside node, and its times leave out the start of node and the reading of files; those of the
program have its start and all reading and writing. It is for measuring only; no check reads it, and
without Yjs there is nothing to measure.
"""
import os
import subprocess
import sys
import tempfile
import time

ELEMENTS = 100_000
LEVELS = 20
KEYS = 50_000
TIMES = 3

MAKE = r"""
const fs = require('fs')
const Y = require('yjs')
const [folder, elements, levels, keys] = process.argv.slice(1)
let seed = 1
const chance = n => { seed = (seed * 48271) % 2147483647; return seed % n }
const write = (name, fill) => {
  const doc = new Y.Doc()
  doc.clientID = 1
  doc.transact(() => fill(doc))
  fs.writeFileSync(folder + '/' + name, Y.encodeStateAsUpdate(doc))
}
write('tree', doc => {
  // Each element goes to the end of one that stands in a level above the last.
  const inner = [[doc.getXmlFragment('t'), 0]]
  for (let n = 0; n < Number(elements); n++) {
    const [parent, level] = n < Number(levels) ? inner[inner.length - 1] : inner[chance(inner.length)]
    const element = new Y.XmlElement('p')
    parent.insert(parent.length, [element])
    if (level + 1 < Number(levels)) inner.push([element, level + 1])
  }
})
write('map', doc => {
  const map = doc.getMap('t')
  for (let n = 0; n < Number(keys); n++) map.set('key' + chance(1e9), n)
})
write('array', doc => {
  const array = doc.getArray('t')
  for (let n = 0; n < Number(keys); n++) {
    const map = new Y.Map()
    array.push([map])
    map.set('done', n % 2 === 0)
  }
})
"""

LOAD = r"""
const fs = require('fs')
const Y = require('yjs')
const [what, file] = process.argv.slice(1)
const update = new Uint8Array(fs.readFileSync(file))
const start = process.hrtime.bigint()
const doc = new Y.Doc()
Y.applyUpdate(doc, update)
const shown = what === 'tree' ? doc.getXmlFragment('t').toString()
  : JSON.stringify(what === 'map' ? doc.getMap('t').toJSON() : doc.getArray('t').toJSON())
console.log(Number(process.hrtime.bigint() - start) / 1e9, shown.length)
"""


def node(script, *words):
    env = dict(os.environ, NODE_PATH="/usr/share/nodejs")
    return subprocess.run(["node", "-e", script, *words], env=env, check=True, capture_output=True, text=True).stdout


def program(ydoc, mode, file):
    start = time.monotonic()
    run = subprocess.run(["/usr/bin/time", "-f", "%M", ydoc, "show", mode, "t", "v1:" + file], capture_output=True)
    took = time.monotonic() - start
    assert run.returncode == 0, run.stderr
    return took, len(run.stdout), int(run.stderr.split()[-1]) / 1000


def main():
    ydoc = os.path.abspath(sys.argv[1])
    with tempfile.TemporaryDirectory() as folder:
        node(MAKE, folder, str(ELEMENTS), str(LEVELS), str(KEYS))
        for name, mode in (("tree", "--tree"), ("map", "--map"), ("array", "--array")):
            file = os.path.join(folder, name)
            yjs = min(float(node(LOAD, name, file).split()[0]) for _ in range(TIMES))
            runs = [program(ydoc, mode, file) for _ in range(TIMES)]
            took, shown, memory = min(runs)
            print(f"{name}: {os.path.getsize(file):,} bytes; ydoc {took:.2f} s, {memory:.0f} MB, {shown:,} bytes shown; Yjs {yjs:.2f} s; {yjs / took:.1f} times")


if __name__ == "__main__":
    main()
