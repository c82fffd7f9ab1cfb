#!/usr/bin/env python3
"""Measures a server with many sessions, and one that knows of many clients.

    checks/serving.py YD_CASES [--instructions]

YD_CASES is the built program of crates/yd_cases, which plays what happens to a server as a case. Each
of so many sessions sends one change, which goes to all others; or one session tells of so many
clients, and then of some of them again, an entry a message. All times are seconds of the processor,
the best of some, and of a run with all less one without what is measured. They have the reading of
the case's lines, and a line for each send.

With --instructions it counts instructions instead, by valgrind, of fewer sessions and entries: so
other work on the machine does not show. An entry is then counted without the reading of its line. It
is for measuring only; no check reads it.
"""
import os
import random
import re
import resource
import subprocess
import sys
import tempfile

TIMES = 3
TOLD = 500_000
COUNTED = 4_000


def number(value):
    """A number of lib0 in three bytes, in hexadecimal digits."""
    return bytes([value % 128 + 128, value // 128 % 128 + 128, value // 16384]).hex()


def change(client):
    """A unit that a client puts at the front of the root `t`."""
    return f"0002" f"0d0101{number(client)}0004010174016100"


def entry(client, clock):
    """The state of a client, at a clock."""
    return f"010b01{number(client)}{number(clock)}037b207d"


def write_case(events):
    """Writes what happens to a server as a case."""
    lines = ["case measured", "file NONE 00 00", f"words serve x {len(events)} v1:NONE", *events]
    with open("measured.cases", "w") as sink:
        sink.write("\n".join([*lines, "status 0", ""]))


def seconds(program, events):
    """The seconds of the processor in which the program plays what happens to a server."""
    write_case(events)
    times = []
    for _ in range(TIMES):
        before = resource.getrusage(resource.RUSAGE_CHILDREN).ru_utime
        with open("told", "w") as told:
            subprocess.run([program, "--to-fail", "measured.cases"], stdout=told, check=False)
        times.append(resource.getrusage(resource.RUSAGE_CHILDREN).ru_utime - before)
    return min(times)


def instructions(program, events):
    """The instructions in which it does so."""
    write_case(events)
    words = ["valgrind", "--tool=callgrind", "--callgrind-out-file=/dev/null", program, "--to-fail", "measured.cases"]
    told = subprocess.run(words, stdout=subprocess.DEVNULL, stderr=subprocess.PIPE, check=False).stderr
    return int(re.search(rb"Collected : (\d+)", told).group(1))


def count(program):
    """Tells how many instructions a send and an entry take."""
    for sessions in [100, 200, 400]:
        opened = [f"opened {session}" for session in range(sessions)]
        changes = [f"received {session} {change(session)}" for session in range(sessions)]
        took = instructions(program, opened + changes) - instructions(program, opened)
        print(f"{sessions} sessions, one change each: {took / (sessions * (sessions - 1)):.0f} instructions a send")
    chance = random.Random(1)
    for clients in [100, 1_000, 10_000]:
        known = ["opened 1"] + [f"received 1 {entry(client, 1)}" for client in range(clients)]
        entries = [entry(chance.randrange(clients), clock + 2) for clock in range(COUNTED)]
        # Nothing is done with what comes from a session that is not open.
        told, unheard = ([f"received {session} {told}" for told in entries] for session in [1, 2])
        took = instructions(program, known + told) - instructions(program, known + unheard)
        print(f"{clients} clients are known: {took / COUNTED:.0f} instructions an entry")


def main():
    program = os.path.abspath(sys.argv[1])
    os.chdir(tempfile.mkdtemp())
    if "--instructions" in sys.argv[2:]:
        count(program)
        return
    for count in [250, 500, 1_000]:
        opened = [f"opened {session}" for session in range(count)]
        changes = [f"received {session} {change(session)}" for session in range(count)]
        took = seconds(program, opened + changes) - seconds(program, opened)
        sends = count * (count - 1)
        print(f"{count} sessions, one change each: {took:.3f} s, {sends} sends, {took / sends * 1e6:.2f} us a send")
    chance = random.Random(1)
    for count in [100, 1_000, 10_000, 100_000]:
        known = ["opened 1"] + [f"received 1 {entry(client, 1)}" for client in range(count)]
        told = [f"received 1 {entry(chance.randrange(count), clock + 2)}" for clock in range(TOLD)]
        took = seconds(program, known + told) - seconds(program, known)
        print(f"{count} clients are known: {took / TOLD * 1e6:.2f} us an entry")


if __name__ == "__main__":
    main()
