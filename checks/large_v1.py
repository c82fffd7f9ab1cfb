#!/usr/bin/env python3
"""Writes an update in V1 of some 10 MB: what six people typed, word by word, and what they deleted.

It is for measuring only; no check reads it.
"""
import sys


def number(n):
    out = bytearray()
    while n >= 128:
        out.append(n % 128 + 128)
        n //= 128
    out.append(n)
    return bytes(out)


def text(s):
    return number(len(s.encode())) + s.encode()


def block(client, structs):
    out = number(structs) + number(client) + number(0)
    clock = 0
    parts = []
    for k in range(structs):
        word = "word%d " % (k % 1000)
        if k == 0:
            parts.append(b"\x04\x01" + text("t") + text(word))
        else:
            parts.append(b"\x84" + number(client) + number(clock - 1) + text(word))
        clock += len(word)
    return out + b"".join(parts), clock


def main():
    clients = [900000 + 7 * k for k in range(6, 0, -1)]
    blocks = [block(client, 110_000) for client in clients]
    out = bytearray(number(len(clients)))
    for structs, _ in blocks:
        out += structs
    out += number(len(clients))
    for client, (_, clock) in zip(clients, blocks):
        spans = range(0, clock - 40, 40)
        out += number(client) + number(len(spans))
        for at in spans:
            out += number(at) + number(3)
    sys.stdout.buffer.write(out)


if __name__ == "__main__":
    main()
