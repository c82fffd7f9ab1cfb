#!/usr/bin/env python3
"""Measures single updates to an open replica, beside Yjs, in one run.

    checks/updates.py YD_ARRIVALS

YD_ARRIVALS is the built program. Yjs makes a text of so many runs, each typed at a place by chance and
each third deleted. Then it makes 10,000 updates of one keystroke each: letters typed one behind another,
letters put at places by chance, and units deleted by chance. The program takes the text as one update
of a log, and the others after it. The time of one update is a ten-thousandth of the processor time that
they take besides the text. Yjs is measured inside node. It is for measuring only; no check reads it, and
without Yjs there is nothing to measure.
"""
import os
import subprocess
import sys
import tempfile

RUNS = (1_000, 10_000, 100_000)
KINDS = ("typed", "put", "deleted")
UPDATES = 10_000
TIMES = 5

MAKE = r"""
const fs = require('fs')
const Y = require('yjs')
const [folder, runs, updates] = process.argv.slice(1)
const number = n => { const out = []; while (n > 127) { out.push(n % 128 + 128); n = Math.floor(n / 128) } out.push(n); return Buffer.from(out) }
let seed = 11
const chance = n => { seed = (seed * 48271) % 2147483647; return Math.floor(seed / 2147483647 * n) }
const letter = () => String.fromCharCode(97 + chance(26))
const doc = new Y.Doc()
doc.clientID = 1
// Each new letter stands in front of the last one or among the first ones, so that none goes on with another.
doc.transact(() => { for (let n = 0; n < Number(runs); n++) doc.getText('t').insert(chance(Math.min(n, 50)), letter()) })
// Each third unit is deleted, so that there are many spans of deleted ids.
doc.transact(() => { for (let n = 0; n < Number(runs) / 3; n++) doc.getText('t').delete(2 * n, 1) })
const whole = Y.encodeStateAsUpdate(doc)
const record = update => Buffer.concat([number(update.length), Buffer.from(update)])
fs.writeFileSync(folder + '/none', record(whole))
const steps = {
  typed: (text, n) => text.insert(Math.floor(text.length / 2) + n, letter()),
  put: text => text.insert(chance(text.length), letter()),
  deleted: text => text.delete(chance(text.length), 1)
}
for (const kind of Object.keys(steps)) {
  const other = new Y.Doc()
  other.clientID = 2
  Y.applyUpdate(other, whole)
  const text = other.getText('t')
  const middle = Math.floor(text.length / 2)
  const log = [record(whole)]
  other.on('update', update => log.push(record(update)))
  for (let n = 0; n < Number(updates); n++) {
    if (kind === 'typed') text.insert(middle + n, letter())
    else steps[kind](text, n)
  }
  fs.writeFileSync(folder + '/' + kind, Buffer.concat(log))
}
"""

TAKE = r"""
const fs = require('fs')
const Y = require('yjs')
const bytes = new Uint8Array(fs.readFileSync(process.argv[1]))
const updates = []
for (let at = 0; at < bytes.length;) {
  let len = 0
  let place = 1
  for (;;) { const b = bytes[at++]; len += (b & 127) * place; place *= 128; if (b < 128) break }
  updates.push(bytes.subarray(at, at + len))
  at += len
}
const doc = new Y.Doc()
Y.applyUpdate(doc, updates[0])
doc.getText('t')
const start = process.hrtime.bigint()
for (const update of updates.slice(1)) Y.applyUpdate(doc, update)
console.log(Number(process.hrtime.bigint() - start) / 1e9)
"""


def node(script, *words):
    env = dict(os.environ, NODE_PATH="/usr/share/nodejs")
    return subprocess.run(["node", "-e", script, *words], env=env, check=True, capture_output=True, text=True).stdout


def program(yd_arrivals, log):
    """Seconds of the processor in one run, the least of some."""
    def run():
        child = subprocess.Popen([yd_arrivals, log], stdout=subprocess.DEVNULL)
        _, status, used = os.wait4(child.pid, 0)
        assert status == 0
        return used.ru_utime + used.ru_stime
    return min(run() for _ in range(TIMES))


def main():
    yd_arrivals = os.path.abspath(sys.argv[1])
    for runs in RUNS:
        with tempfile.TemporaryDirectory() as folder:
            node(MAKE, folder, str(runs), str(UPDATES))
            none = program(yd_arrivals, os.path.join(folder, "none"))
            for kind in KINDS:
                log = os.path.join(folder, kind)
                each = (program(yd_arrivals, log) - none) / UPDATES
                yjs = min(float(node(TAKE, log)) for _ in range(TIMES)) / UPDATES
                print(f"{runs:,} runs, {kind}: {each * 1e6:.1f} µs an update; Yjs {yjs * 1e6:.1f} µs", flush=True)


if __name__ == "__main__":
    main()
