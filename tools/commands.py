#!/usr/bin/env python3
"""A drawn list of command lines for the bench, refused ones and damaged ones among them.

  python3 tools/commands.py plan.txt SEED COUNT > commands

Commits follow the least unrun time of the engine of tools/worked.py, so that most are accepted; posts fall at and after the commit time, so that some undo.
"""
import random
import sys

from bench import FIELDS, answer
from plan import stations
from worked import Engine


def command(dice, engine, count):
    roll, now = dice.randrange(100), engine.now
    station, time = dice.randrange(count + 1), now + dice.randrange(120)
    if roll < 14:
        kind = dice.choice([1, 2, 2, 2, 3, 3, 3, 3, 4])
        value = {1: 0, 2: dice.randrange(count + 1) + 256 * dice.choice([0, 0, 0, 1, 2, 3, 4]), 3: dice.randrange(10000)}.get(kind, 0)
        return "post %d %d %d %d" % (station, time - (roll == 0), kind, value)
    if roll < 20:
        return "retract %d" % max(0, engine.next - dice.randrange(6))
    if roll < 44:
        return "run %d" % station
    if roll < 80:
        return "run"
    if roll < 98:
        least = min((k[0] for k in engine.unrun()), default=now + 50)
        return "commit %d" % (max(now, least + dice.randrange(-4, 2)) if roll > 81 else now)
    return dice.choice(["", "run ", "run  1", "run 01", "post 1 2 3", "commit +1", "commit 18446744073709551616", "retract -1", "RUN", "run 1 1"])


def commands(text, seed, length):
    plan = [dict(zip(FIELDS, numbers)) for numbers, _ in stations(text)]
    dice, engine = random.Random(seed), Engine(plan, 16, 64, 64)
    for _ in range(length):
        line = command(dice, engine, len(plan))
        yield line
        answer(engine, line.encode())


if __name__ == "__main__":
    for line in commands(open(sys.argv[1]).read(), int(sys.argv[2]), int(sys.argv[3])):
        print(line)
