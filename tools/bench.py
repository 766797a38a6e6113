#!/usr/bin/env python3
"""What the bench prints, from a reading of documents 01 and 02 that shares nothing with the crates: the engine is that of tools/worked.py.

  python3 tools/bench.py plan.txt < commands > expected

The plan is text, as tools/plan.py reads it, and is taken to be in range.
"""
import re
import sys

from plan import stations
from worked import Engine

FIELDS = ("parent", "calm", "spring", "threshold", "hop", "noise", "seed")
NUMBER = b"(0|[1-9][0-9]*)"
FORMS = {
    "post": re.compile(b"post " + b" ".join([NUMBER] * 4)),
    "retract": re.compile(b"retract " + NUMBER),
    "lowest": re.compile(b"run"),
    "run": re.compile(b"run " + NUMBER),
    "commit": re.compile(b"commit " + NUMBER),
}


def answer(engine, line):
    for call, form in FORMS.items():
        match = form.fullmatch(line)
        numbers = [int(g) for g in match.groups()] if match else []
        if match and all(n < 2**64 for n in numbers):
            break
    else:
        return ["no 8"]
    if call == "commit":
        said = engine.commit(numbers[0], 1536)
    else:
        said = getattr(engine, call)(*numbers)
    if said[0] == "Refused":
        return ["no %d" % said[1]]
    if call == "commit":
        lines = ["%d %d %d %d %d %d" % (k[0], k[1], m[0], k[2], k[3], m[1]) for k, m in said[1]]
        return lines + ["commit %d" % len(said[1])]
    if call == "lowest":
        call, said = "run", said[:3]  # the count of bitmap words read is not printed
    return [" ".join([call] + [str(n) for n in said[1:]])]


def bench(text, commands):
    plan = [dict(zip(FIELDS, numbers)) for numbers, _ in stations(text)]
    engine = Engine(plan, 16, 64, 64)
    lines = commands.split(b"\n")
    if lines[-1] == b"":
        lines.pop()
    return "".join(said + "\n" for line in lines for said in answer(engine, line))


if __name__ == "__main__":
    sys.stdout.write(bench(open(sys.argv[1]).read(), sys.stdin.buffer.read()))
