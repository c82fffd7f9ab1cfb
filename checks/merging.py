#!/usr/bin/env python3
"""Measures `pack`, `merge`, `cut` and `vector` beside Yjs, in one run.

    checks/merging.py YDOC

YDOC is the built program. All times are seconds of the processor. Yjs runs inside node, and its times
leave out the start of node and the reading of files; those of the program have its start and all
reading and writing. Where there is no Yjs, the times of the program alone are told. It is for
measuring only; no check reads it.
"""
import os
import random
import subprocess
import sys
import tempfile
import time

KEYSTROKES = 259_778
TIMES = 3

YJS = r"""
const fs = require('fs')
const Y = require('yjs')
const [what, file] = process.argv.slice(1)
const bytes = fs.readFileSync(file)
const entries = []
if (what === 'mergeUpdates') {
  let at = 0
  const number = () => { let n = 0; let by = 1; for (;;) { const b = bytes[at++]; n += (b & 127) * by; by *= 128; if (b < 128) return n } }
  while (at < bytes.length) { const len = number(); entries.push(new Uint8Array(bytes.slice(at, at + len))); at += len }
}
const update = new Uint8Array(bytes)
const half = Y.encodeStateVector(new Map([[1, 130000]]))
const start = process.cpuUsage()
if (what === 'mergeUpdates') Y.mergeUpdates(entries)
if (what === 'diffUpdate') Y.diffUpdate(update, half)
if (what === 'encodeStateVectorFromUpdate') Y.encodeStateVectorFromUpdate(update)
const used = process.cpuUsage(start)
console.log((used.user + used.system) / 1e6)
"""


def number(n):
    out = bytearray()
    while n >= 128:
        out.append(n % 128 + 128)
        n //= 128
    out.append(n)
    return bytes(out)


def entry(update):
    return number(len(update)) + update


def keystroke(client, clock, left):
    letter = b"\x01" + bytes([97 + clock % 26])
    struct = b"\x04\x01\x01t" + letter if left is None else b"\x84" + number(left[0]) + number(left[1]) + letter
    return b"\x01\x01" + number(client) + number(clock) + struct + b"\x00"


def typed(count):
    return [keystroke(1, clock, None if clock == 0 else (1, clock - 1)) for clock in range(count)]


def by_two(count):
    """Two clients type at the end in turn."""
    last, clocks, updates = None, {1: 0, 2: 0}, []
    for k in range(count):
        client = 1 + k % 2
        updates.append(keystroke(client, clocks[client], last))
        last = (client, clocks[client])
        clocks[client] += 1
    return updates


def edited(count):
    """One update: each edit stands in front of the text, so that no two are one run."""
    structs = bytearray()
    for clock in range(count):
        letter = b"\x01" + bytes([97 + clock % 26])
        structs += b"\x04\x01\x01t" + letter if clock == 0 else b"\x44\x01" + number(clock - 1) + letter
    return b"\x01" + number(count) + b"\x01\x00" + bytes(structs) + b"\x00"


def in_one(info, size):
    """One update: a text (info 4) or a byte string (info 3) of so many bytes."""
    return b"\x01\x01\x01\x00" + bytes([info]) + b"\x01\x01t" + number(size) + b"a" * size + b"\x00"


def run(command, out):
    """The seconds of processor and the megabytes that the command takes."""
    with open(out, "wb") as sink:
        process = subprocess.Popen(command, stdout=sink)
        _, status, usage = os.wait4(process.pid, 0)
    if status != 0:
        sys.exit("failed: %s" % " ".join(command))
    return usage.ru_utime + usage.ru_stime, usage.ru_maxrss / 1024


def best(command, out):
    runs = [run(command, out) for _ in range(TIMES)]
    return min(seconds for seconds, _ in runs), max(size for _, size in runs)


def yjs(what, file):
    """The seconds of processor of a call of Yjs, or nothing where it cannot be had."""
    answers = []
    for _ in range(TIMES):
        done = subprocess.run(["node", "-e", YJS, what, file], capture_output=True, text=True)
        if done.returncode != 0:
            return None
        answers.append(float(done.stdout))
    return min(answers)


def tell(name, ours, theirs=None):
    seconds, size = ours
    line = "%-44s %7.3f s %6.0f MB" % (name, seconds, size)
    if theirs is not None:
        line += "   Yjs %7.3f s, %5.1f times" % (theirs, theirs / max(seconds, 0.001))
    print(line, flush=True)


def main():
    program = os.path.abspath(sys.argv[1])
    os.environ.setdefault("NODE_PATH", "/usr/share/nodejs")
    folder = tempfile.mkdtemp()
    os.chdir(folder)

    def put(name, data):
        with open(name, "wb") as sink:
            sink.write(data)
        return name

    all_typed = typed(KEYSTROKES)
    log = put("typed.log", b"".join(map(entry, all_typed)))
    half = put("half.log", b"".join(map(entry, all_typed[: KEYSTROKES // 2])))
    random.Random(1).shuffle(all_typed)
    mixed = put("mixed.log", b"".join(map(entry, all_typed)))
    two = put("two.log", b"".join(map(entry, by_two(12_001))))
    size = os.path.getsize(log)
    text = put("text.log", entry(in_one(4, size)))
    blob = put("blob.log", entry(in_one(3, size)))
    whole = put("edited.bin", edited(260_000))
    vector = put("vector.bin", b"\x01\x01" + number(130_000))

    tell("pack of %d keystrokes" % KEYSTROKES, best([program, "pack", "log:" + log], "out"))
    tell("pack of one text of as many bytes", best([program, "pack", "log:" + text], "out"))
    tell("pack of one byte string of as many bytes", best([program, "pack", "log:" + blob], "out"))
    tell("merge of them", best([program, "merge", "v1", "log:" + log], "out"))
    tell("merge of half of them", best([program, "merge", "v1", "log:" + half], "out"))
    tell("merge of them in random order", best([program, "merge", "v1", "log:" + mixed], "out"))
    tell("merge of 12,001 of two clients", best([program, "merge", "v1", "log:" + two], "out"), yjs("mergeUpdates", two))
    tell("cut of 260,000 edits at half", best([program, "cut", vector, "v1:" + whole], "out"), yjs("diffUpdate", whole))
    tell("vector of 260,000 edits", best([program, "vector", "v1:" + whole], "out"), yjs("encodeStateVectorFromUpdate", whole))


if __name__ == "__main__":
    main()
