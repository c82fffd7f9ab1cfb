#!/usr/bin/env python3
"""Writes a log of 259,778 updates of one keystroke each, or of so many as a word says.

With the word `one` it writes the same keystrokes as one update in V1. With the word `whole` it writes a
log of as many bytes that has one update of one byte string, which is little more than copied.
It is for measuring only; no check reads it.
"""
import sys


def number(n):
    out = bytearray()
    while n >= 128:
        out.append(n % 128 + 128)
        n //= 128
    out.append(n)
    return bytes(out)


def struct(clock):
    letter = b"\x01" + bytes([97 + clock % 26])
    if clock == 0:
        return b"\x04\x01\x01t" + letter
    return b"\x84\x01" + number(clock - 1) + letter


def keystroke(clock):
    return b"\x01\x01\x01" + number(clock) + struct(clock) + b"\x00"


def all_in_one(count):
    structs = b"".join(struct(clock) for clock in range(count))
    return b"\x01" + number(count) + b"\x01\x00" + structs + b"\x00"


def entry(update):
    return number(len(update)) + update


def main():
    words = sys.argv[1:]
    write = sys.stdout.buffer.write
    count = int(next((word for word in words if word.isdigit()), 259_778))
    if "one" in words:
        write(all_in_one(count))
        return
    log = b"".join(entry(keystroke(clock)) for clock in range(count))
    if "whole" in words:
        blob = number(len(log)) + log
        log = entry(b"\x01\x01\x01\x00\x03\x01\x01t" + blob + b"\x00")
    write(log)


main()
