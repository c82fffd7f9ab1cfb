#!/usr/bin/env python3
"""Measures `show` of a text that lies in many updates, beside Yjs, in one run.

    checks/opening.py YDOC

YDOC is the built program. Yjs applies each update by itself, as it does with updates that arrive. All
times are seconds of the processor. Those of Yjs leave out the start of node and the reading of files;
those of the program have its start and all reading and writing. Where there is no Yjs, the times of
the program alone are told. It is for measuring only; no check reads it.
"""
import os
import random
import subprocess
import sys
import tempfile

from merging import KEYSTROKES, TIMES, best, by_two, entry, tell, typed

SOME = 10_000
MANY = 60_000

YJS = r"""
const fs = require('fs')
const Y = require('yjs')
const bytes = fs.readFileSync(process.argv[1])
const entries = []
let at = 0
const number = () => { let n = 0; let by = 1; for (;;) { const b = bytes[at++]; n += (b & 127) * by; by *= 128; if (b < 128) return n } }
while (at < bytes.length) { const len = number(); entries.push(new Uint8Array(bytes.slice(at, at + len))); at += len }
const start = process.cpuUsage()
const doc = new Y.Doc()
for (const update of entries) Y.applyUpdate(doc, update)
const shown = doc.getText('t').toString()
const used = process.cpuUsage(start)
console.log((used.user + used.system) / 1e6, shown.length)
"""


def yjs(file):
    """The seconds that Yjs takes to apply each update of a log, or nothing where it cannot be had."""
    answers = []
    for _ in range(TIMES):
        done = subprocess.run(["node", "-e", YJS, file], capture_output=True, text=True)
        if done.returncode != 0:
            return None
        answers.append(float(done.stdout.split()[0]))
    return min(answers)


def main():
    program = os.path.abspath(sys.argv[1])
    os.environ.setdefault("NODE_PATH", "/usr/share/nodejs")
    folder = tempfile.mkdtemp()
    os.chdir(folder)

    def measure(name, updates):
        with open("log", "wb") as sink:
            sink.write(b"".join(map(entry, updates)))
        tell("show of " + name, best([program, "show", "--text", "t", "log:log"], "out"), yjs("log"))

    some, all_typed = typed(SOME), typed(KEYSTROKES)
    mixed = list(some)
    random.Random(1).shuffle(mixed)
    measure("%d keystrokes" % SOME, some)
    measure("them from the last to the first", some[::-1])
    measure("them in random order", mixed)
    measure("%d keystrokes of two clients in turn" % MANY, by_two(MANY))
    measure("%d keystrokes" % KEYSTROKES, all_typed)


if __name__ == "__main__":
    main()
