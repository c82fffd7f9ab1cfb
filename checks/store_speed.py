#!/usr/bin/env python3
"""Measures the store beside plain vectors, each job in a fresh process, and prints the best of some.

Run `rt run` in crates/yd_store_speed before. It is for measuring only; no check reads it.
"""
import os
import subprocess
import sys

PROGRAM = os.path.join(os.path.dirname(__file__), "../crates/yd_store_speed/out/yd_store_speed")
TIMES = int(sys.argv[1]) if len(sys.argv) > 1 else 5


def measured(job, count):
    """The best time in microseconds, and the most memory in KB."""
    times, memory = [], 0
    for _ in range(TIMES):
        child = subprocess.Popen([PROGRAM, job, str(count)], stdout=subprocess.PIPE, text=True)
        out = child.stdout.read()
        _, status, usage = os.wait4(child.pid, 0)
        if status != 0:
            sys.exit(f"{job} {count}: status {status}")
        times.append(int(out.split()[-1]))
        memory = max(memory, usage.ru_maxrss)
    return min(times), memory


def main():
    _, nothing = measured("typed", 1)
    for job, other, count in [
        ("typed", "pushed", 1_000_000),
        ("walk", "pass", 1_000_000),
        ("splits", "inserts", 100_000),
        ("crowd", "rows", 1_000),
        ("crowd", "rows", 5_000),
    ]:
        time, memory = measured(job, count)
        plain, _ = measured(other, count)
        print(f"{job} {count}: {time} us, {other} {plain} us, ratio {time / max(plain, 1):.2f},"
              f" {(memory - nothing) * 1024 // count} bytes a run")


if __name__ == "__main__":
    main()
