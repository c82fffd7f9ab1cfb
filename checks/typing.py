#!/usr/bin/env python3
"""Measures scripts that edit a text letter by letter.

    checks/typing.py YDOC [LINES ..]

YDOC is the built program. It types at the end of a text, at its front and in its midst, and deletes
from its end, with scripts of so many lines, or of 1,000 and 10,000. All times are seconds of the
processor, with the program's start and the reading of the script. It is for measuring only; no check
reads it.
"""
import json
import os
import resource
import subprocess
import sys
import tempfile

JOBS = ["end", "front", "midst", "delete"]


def lines(job, count):
    if job == "end":
        return [["insert", "t", i, "x"] for i in range(count)]
    if job == "front":
        return [["insert", "t", 0, "x"] for _ in range(count)]
    if job == "midst":
        return [["insert", "t", i // 2, "x"] for i in range(count)]
    half = count // 2
    typed = [["insert", "t", i, "x"] for i in range(half)]
    return typed + [["delete", "t", half - 1 - i, 1] for i in range(half)]


def spent():
    used = resource.getrusage(resource.RUSAGE_CHILDREN)
    return used.ru_utime + used.ru_stime


def measure(program, folder, job, count):
    script = os.path.join(folder, "script")
    with open(script, "w") as file:
        for line in lines(job, count):
            file.write(json.dumps(line) + "\n")
    before = spent()
    done = subprocess.run([program, "edit", "3", script], stdout=subprocess.DEVNULL)
    return spent() - before, done.returncode


def main():
    program = os.path.abspath(sys.argv[1])
    counts = [int(n) for n in sys.argv[2:]] or [1000, 10000]
    with tempfile.TemporaryDirectory() as folder:
        for job in JOBS:
            for count in counts:
                seconds, code = measure(program, folder, job, count)
                told = "" if code == 0 else f", status {code}"
                print(f"{job}: {count} lines, {seconds:.2f} s{told}", flush=True)


if __name__ == "__main__":
    main()
