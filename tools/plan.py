#!/usr/bin/env python3
"""A plan file from readable text: a line a station, in the order of their numbers.

  python3 tools/plan.py < line.txt > plan.bin

A line has parent, calm period, spring period, threshold, hop delay, noise limit and seed, and may have a name. Times are in ms, the threshold in mm. Empty
lines and what follows a # are passed over. The numbers are not judged here: the bench says what is wrong with them.
"""
import struct
import sys


def stations(text):
    for line in text.splitlines():
        words = line.split("#")[0].split()
        if words:
            yield [int(w) for w in words[:7]], (words[7] if len(words) > 7 else "").encode()


def plan(text):
    records = [struct.pack("<H6I", *numbers) + name for numbers, name in stations(text)]
    pairs, at = b"", 2 + 8 * len(records)
    for record in records:
        pairs += struct.pack("<2I", at, len(record))
        at += len(record)
    return struct.pack("<H", len(records)) + pairs + b"".join(records)


if __name__ == "__main__":
    sys.stdout.buffer.write(plan(sys.stdin.read()))
