#!/usr/bin/env python3
"""Writes an update in V1: a text of 100,000 runs, of which every second one is told in one of five ways.

    collected_v1.py full|named|deleted|gone|skipped

full: as the others; named: so, and a deletion names it; deleted: its place alone; gone: its ids alone;
skipped: nothing, and a deletion names it. It is for measuring only; no check reads it.
"""
import sys

from large_v1 import number, text

RUNS = 100_000
WORD = "word "


def run(clock, behind):
    """A run of five letters behind a unit, or the first one."""
    if behind is None:
        return b"\x04\x01" + text("t") + text(WORD)
    return b"\x84" + number(1) + number(behind) + text(WORD)


def other(way, clock, behind):
    """A run of five units as it is told."""
    if way in ("full", "named"):
        return run(clock, behind)
    if way == "deleted":
        return b"\x81" + number(1) + number(behind) + number(len(WORD))
    return {"gone": b"\x00", "skipped": b"\x0a"}[way] + number(len(WORD))


def main(way):
    structs = []
    behind = None
    spans = []
    for k in range(RUNS):
        clock = k * len(WORD)
        if k % 2 == 0:
            structs.append(run(clock, behind))
            behind = clock + len(WORD) - 1
        else:
            structs.append(other(way, clock, behind))
            spans.append(clock)
    out = bytearray(number(1) + number(RUNS) + number(1) + number(0) + b"".join(structs))
    if way in ("named", "skipped"):
        out += number(1) + number(1) + number(len(spans))
        for at in spans:
            out += number(at) + number(len(WORD))
    else:
        out += number(0)
    sys.stdout.buffer.write(out)


main(sys.argv[1])
