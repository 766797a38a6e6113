#!/usr/bin/env python3
"""All small command lists and what the bench prints for each call, from a reading of documents 01 and 02 that shares nothing with the crates: the engine is that
of tools/worked.py, and its answers are told as tools/bench.py tells them.

  python3 tools/small_lists.py > crates/small_lists_run/stdout
  python3 tools/small_lists.py outputs > crates/small_lists_test/stdout

A line a list: its four bytes, and each call as the bench's command with its answer. With `outputs`: what outputs of some lengths are left with.
"""
import itertools
import os
import sys

from bench import FIELDS, answer
from plan import stations
from worked import Engine

CALLS = [b"run", b"run 0", b"run 1", b"post 1 0 1 0", b"post 1 30 1 0", b"retract 0", b"commit 31"]
PLAN = os.path.join(os.path.dirname(os.path.abspath(__file__)), "lines", "two.txt")


def lists():
    for length in range(4):
        yield from itertools.product(range(7), repeat=length)


def four_bytes(calls):
    return bytes([len(calls), *calls] + [7] * (3 - len(calls)))


def line(plan, calls):
    engine = Engine(plan, 16, 64, 64)
    told = ["%s: %s" % (CALLS[c].decode(), " / ".join(answer(engine, CALLS[c]))) for c in calls]
    return " | ".join([" ".join(map(str, four_bytes(calls)))] + told)


def written(length):
    listing = b"".join(map(four_bytes, lists()))
    before = bytes([165]) * 1700
    if length < len(listing):
        return "no 18", before
    return "ok", listing + before[len(listing):]


def outputs():
    for length in (0, 1, 4, 1596, 1599, 1600, 1601, 1604, 1700):
        said, out = written(length)
        yield "write %d: %s, %d as they were, sum %d" % (length, said, out.count(165), sum(out))
    for k in (0, 1, 7, 8, 9, 56, 57, 58, 399, 400):
        yield "list %d: %s" % (k, " ".join(map(str, out[4 * k:4 * k + 4])))


if __name__ == "__main__":
    if sys.argv[1:] == ["outputs"]:
        lines = outputs()
    else:
        plan = [dict(zip(FIELDS, numbers)) for numbers, _ in stations(open(PLAN).read())]
        lines = (line(plan, calls) for calls in lists())
    sys.stdout.write("".join(text + "\n" for text in lines))
