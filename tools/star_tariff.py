#!/usr/bin/env python3
"""What the star tariff's programs read and print, from a reading of document 02 (change 14) that shares nothing with the crates.

  python3 tools/star_tariff.py           holds the plans, input and output in crates star_tariff, star_tariff_test and star_tariff_run against it
  python3 tools/star_tariff.py write     writes them
  python3 tools/star_tariff.py calls     prints the calls that star_tariff_test has to make

A sum is the formula's. Where it is below 250000 it is first held against what the collector hears on the machine of tools/worked.py, and so are 2000
drawn stars.
"""
import os
import random
import re
import struct
import sys

from plan import plan
from worked import H, POSTED, machine

CRATES = os.path.join(os.path.dirname(os.path.abspath(__file__)), "..", "crates")
FIELDS = ("parent", "calm", "spring", "threshold", "hop", "noise", "seed")


def station(period, hop, **others):
    return dict(dict(parent=0, calm=period, spring=period, threshold=5000, hop=hop, noise=0, seed=1), **others)


def star(stations):
    return all(s["parent"] == 0 and s["noise"] == 0 and s["calm"] == s["spring"] for s in stations)


def tariff(stations, c):
    return sum(0 if c <= s["hop"] else -((s["hop"] - c) // s["calm"]) for s in stations[1:])


def heard(stations, c):
    posts = {(0, s, POSTED, s - 1): (1, 0) for s in range(1, len(stations))}
    return machine(stations, posts, c)[1][0]["heard"]


def answer(stations, line):
    if stations is None or not star(stations) or not re.fullmatch(b"0|[1-9][0-9]*", line) or int(line) > H + 1:
        return "no"
    c = int(line)
    if tariff(stations, c) < 250000:
        assert heard(stations, c) == tariff(stations, c)
    return "yes %d" % tariff(stations, c)


def text(stations):
    return "\n".join(" ".join(str(s[f]) for f in FIELDS) + " " + s.get("name", "") for s in stations)


THREE = [station(1000, 30), station(1000, 30), station(700, 45, seed=77)]
LARGEST = 4294967295
STARS = {
    "three": THREE,
    "one": [station(7, 5)],
    "named": [station(9, 1, name="Dam!"), station(3, 2, threshold=0, seed=2147483646, name="x" * 16), station(4, LARGEST)],
    "day": [station(300000, 250)] * 256,
    "fastest": [station(1, 1)] * 256,
    "slowest": [station(1, 1), station(LARGEST, 1)],
}


def but(number, **others):
    """The line of three stations with one of them changed."""
    return [dict(s, **others) if k == number else s for k, s in enumerate(THREE)]


OTHERS = {
    "bench": [station(1000, 30, spring=200)] * 2,
    "spring_of_the_first": but(0, spring=999),
    "spring_of_the_middle": but(1, spring=1001),
    "spring_of_the_last": but(2, spring=701),
    "noise_of_the_first": but(0, noise=1),
    "noise_of_the_middle": but(1, noise=2147483646),
    "noise_of_the_last": but(2, noise=1),
    "parent_of_the_last": but(2, parent=1),
    "last_of_256": [station(300000, 250)] * 255 + [station(300000, 250, parent=254)],
}
GOOD = plan(text(THREE))
REFUSED = {
    "empty": b"",
    "one_byte": b"\3",
    "no_stations": struct.pack("<H", 0),
    "stations_257": plan(text([station(300000, 250)] * 257)),
    "no_pairs": GOOD[:25],
    "cut": GOOD[:-1],
    "offset": GOOD[:2] + b"\x1b" + GOOD[3:],
    "trailing": GOOD + b"\0",
    "own_parent": plan(text(but(2, parent=2))),
    "calm_0": plan(text(but(2, calm=0, spring=0))),
    "hop_0": plan(text(but(1, hop=0))),
    "noise": plan(text(but(0, noise=2147483647))),
    "seed_0": plan(text(but(0, seed=0))),
    "space_in_a_name": plan(text(but(0, name="a-b"))).replace(b"a-b", b"a b"),
}
LINES = [b"", b"0", b"1", b"30", b"31", b"45", b"46", b"745", b"746", b"1000", b"1001", b"1030", b"1031", b"86400000", b"%d" % H, b"%d" % (H + 1)]
LINES += [b"%d" % (H + 2), b"18446744073709551615", b"18446744073709551616", b"%d" % (2**64 + 1031), b"00", b"05", b"01031", b"+5", b"-5", b" 5", b"5 "]
LINES += [b"5\r", b"5\0", b"\xb5", b"5a", b"a5", b"0x5", b"five", b"1e3", b"5.0", b"5 6", b"/", b":"]
LINES += [b"1031" + b" " * 17, b"0" * 17 + b"1031", b"0" * 21, b"1" * 30]
CASES = [("three", line) for line in LINES]
CASES += [("one", b"0"), ("one", b"%d" % (H + 1)), ("one", b"%d" % (H + 2)), ("named", b"8"), ("named", b"%d" % LARGEST), ("named", b"%d" % (LARGEST + 1))]
CASES += [("day", b"250"), ("day", b"251"), ("day", b"86400000"), ("day", b"86400250"), ("day", b"86400251")]
CASES += [("fastest", b"1"), ("fastest", b"2"), ("fastest", b"%d" % (H + 1)), ("slowest", b"%d" % H), ("slowest", b"%d" % (H + 1))]
CASES += [(name, b"1031") for name in list(OTHERS) + list(REFUSED) + ["missing"]] + [("three", b"1031"), ("three", b"")]

# Stars that the engine runs: a plan and a commit time a line.
RUNS = [("three", c) for c in (0, 30, 31, 45, 46, 745, 746, 1001, 1030, 1031, 3600000)] + [("named", c) for c in (2, 3, 50)] + [("one", 100)]
RUNS += [("day", c) for c in (3600000, 3600251)] + [("slowest", c) for c in (H, H + 1)]


def parts(line):
    """What the calls for a line read: 21 bytes at most each, so that the rest of a longer line is left to the next."""
    return [line[at:at + 21] for at in range(0, len(line) + 1, 21)]


def calls():
    """A plan and how many lines of the input it takes, in order."""
    groups = []
    for name, line in CASES:
        if not groups or groups[-1][0] != name:
            groups.append([name, 0])
        groups[-1][1] += len(parts(line))
    return "".join('ask(rt, b"%s.bin", %d)\n' % (name, lines) for name, lines in groups)


def written():
    known = dict(STARS, **OTHERS)
    plans = dict({name: plan(text(stations)) for name, stations in known.items()}, **REFUSED)
    for name, content in plans.items():
        yield "star_tariff_test/data/%s.bin" % name, content
    yield "star_tariff_test/stdin", b"\n".join(line for _, line in CASES)
    yield "star_tariff_test/stdout", "".join(answer(known.get(name), part) + "\n" for name, line in CASES for part in parts(line)).encode()

    yield "star_tariff/data/plan.bin", GOOD
    yield "star_tariff/stdin", b"1031\nnot read\n"
    yield "star_tariff/stdout", (answer(THREE, b"1031") + "\n").encode()

    for name in sorted({name for name, _ in RUNS}):
        yield "star_tariff_run/data/%s.bin" % name, plans[name]
    yield "star_tariff_run/stdout", "".join("%d %s\n" % (heard(STARS[name], c), answer(STARS[name], b"%d" % c)) for name, c in RUNS).encode()


def main():
    if sys.argv[1:] == ["calls"]:
        sys.stdout.write(calls())
        return
    dice = random.Random(1)
    for _ in range(2000):
        stations = [station(dice.randrange(1, 60), dice.randrange(1, 60), seed=dice.randrange(1, 2147483647)) for _ in range(dice.randrange(1, 6))]
        c = dice.randrange(0, 300)
        assert heard(stations, c) == tariff(stations, c)
    for name, content in written():
        path = os.path.join(CRATES, name)
        if sys.argv[1:] == ["write"]:
            with open(path, "wb") as f:
                f.write(content)
        elif open(path, "rb").read() != content:
            sys.exit(name + " differs")
    with open(os.path.join(CRATES, "star_tariff_test/src/main.rt")) as f:
        if re.findall(r'ask\(rt, b"[^"]*", \d+\)', f.read()) != calls().split("\n")[:-1]:
            sys.exit("star_tariff_test makes other calls")


if __name__ == "__main__":
    main()
