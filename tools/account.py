#!/usr/bin/env python3
"""What crate account_test writes, from a reading of document 02, changes 1 and 2, and of document 01 (number 10) that shares nothing with the crates: a list of
charges, and beside it the log read so far.

  python3 tools/account.py > crates/account_test/stdout

With two numbers it writes so many drawn lists instead, from a seed on; `make accounts` makes their calls.

  python3 tools/account.py LISTS SEED
"""
import random
import sys

H = 1099511627775
POSTED = 65535
MOST = 2**64 - 1


def no(n):
    return "no %d" % n


def suits(n, kind, value):
    """What number 10 does not refuse. A frame's value is its origin plus 256 times the repeats made, 0 to 3 (change 2)."""
    if kind == 1:
        return value == 0
    if kind == 2:
        return any(value == origin + 256 * repeats for origin in range(n) for repeats in range(4))
    return kind == 3


def right(n, entry):
    time, target, kind, source, _, value = entry
    return time <= H and target < n and (source < n or source == POSTED) and suits(n, kind, value)


class Account:
    """An account in a buffer of so many bytes, and a part that is laid out entry by entry."""

    def __init__(self):
        self.size, self.n, self.costs, self.charges, self.log, self.given, self.part = 0, 0, {}, [], [], 0, {}

    def room(self, n):
        return 1 <= n <= 256 and self.size >= 8 + 8 * n

    def open(self, n, reading, frame, size):
        # of another length: in another buffer
        if size != self.size:
            self.size, self.n = size, 0
        if not self.room(n):
            return no(7)
        self.n, self.costs, self.charges, self.log, self.given = n, {1: reading, 2: frame, 3: 0}, [0] * n, [], 0
        return "ok"

    def entry(self, k, *numbers):
        self.part[k] = numbers

    def put(self, station, units):
        """The account is handed over with that charge."""
        self.given += units - self.charges[station]
        self.charges[station] = units

    def read(self, n, length):
        if not self.room(n):
            return no(7)
        if length % 24 != 0:
            return no(19)
        entries = [self.part[k] for k in range(length // 24)]
        if not all(right(n, e) for e in entries):
            return no(19)
        assert n == self.n, "the answer is free"
        after = list(self.charges)
        for _, target, kind, _, _, _ in entries:
            after[target] += self.costs[kind]
        if max(after) > MOST:
            return no(20)
        self.charges, self.log = after, self.log + entries
        return "ok"

    def charge(self, n, station):
        if not self.room(n):
            return no(7)
        if station >= n:
            return no(9)
        assert n == self.n, "the answer is free"
        return str(self.charges[station])

    def sum(self, n):
        assert n == self.n, "the answer is free"
        return str(sum(self.charges))

    def sums_up(self):
        """The sum over all stations is A times the readings plus B times the frames of the log read so far."""
        count = [e[2] for e in self.log].count
        return self.n == 0 or sum(self.charges) == self.given + self.costs[1] * count(1) + self.costs[2] * count(2)


c = Account()


def say(call, *numbers):
    answer = getattr(c, call)(*numbers)
    print(" ".join([call] + [str(n) for n in numbers]) + (": " + answer if answer else ""))
    assert c.sums_up()
    return answer


def script(text):
    for line in text.split("\n"):
        words = line.split()
        if words:
            say(words[0], *[int(w) for w in words[1:]])


# ---- drawn lists


def entry(dice, n):
    """Right, and mostly at an edge."""
    s = dice.randrange(n)
    kind = dice.choice([1, 1, 2, 2, 3])
    value = {1: 0, 2: dice.choice([0, s, n - 1]) + 256 * dice.randrange(4), 3: dice.choice([0, s, 5000, 2**32 - 1])}[kind]
    return [dice.choice([0, dice.randrange(H), H]), dice.choice([0, s, n - 1]), kind, dice.choice([0, s, n - 1, POSTED]), dice.choice([0, 7, 2**32 - 1]), value]


# a number of each, at the other side of an edge or not
TIMES = [H, H + 1, 2**40 + 2**32, 2**63, MOST]
STATIONS = [0, 1, 254, 255, 256, 65534, 65535]
KINDS = [0, 1, 2, 3, 4, 257, 65537, 2**24 + 1, 2**32 - 1]
VALUES = [0, 1, 255, 256, 511, 512, 767, 768, 1023, 1024, 1025, 65536, 2**32 - 1]


def moved(dice, n, e):
    place = dice.choice([0, 1, 2, 3, 5])
    stations = STATIONS + [n - 1, n, n + 1]
    values = VALUES + [256 * repeats + s for repeats in range(5) for s in (n - 1, n)]
    return e[:place] + [dice.choice([TIMES, stations, KINDS, stations, [], values][place])] + e[place + 1:]


def calls(dice):
    n = dice.choice([1, 2, 2, 3, 40, 255, 256])
    cost = lambda: dice.choice([0, 1, 5, 2**31, 2**32 - 1, dice.randrange(2**32)])
    for _ in range(dice.randrange(3)):
        say("open", dice.choice([n, 0, 257, 2**16 + n, 2**32 + n, MOST]), cost(), cost(), dice.choice([0, 7, 8, 7 + 8 * n]))
    costs = [cost(), cost(), 0]
    size = 8 + 8 * n + dice.choice([0, 0, 1, 100])
    say("open", n, costs[0], costs[1], size)
    for _ in range(dice.randrange(4)):
        say("put", dice.choice([0, n - 1, dice.randrange(n)]), MOST - dice.randrange(3) - dice.choice([0, 1, 2, 10]) * max(costs))
    for _ in range(10 + dice.randrange(30)):
        roll = dice.randrange(20)
        if roll < 10:
            count = dice.choice([0, 1, 1, 2, 3, 8])
            for k in range(count):
                e = entry(dice, n)
                say("entry", k, *(moved(dice, n, e) if dice.randrange(8) == 0 else e))
            say("read", n, 24 * count)
        elif roll < 11:
            say("read", n, dice.choice([1, 23, 25, 32, 36, 40]))
        elif roll < 12:
            say("read", dice.choice([0, 257, (size - 8) // 8 + 1, 2**16 + n, 2**32 + n, MOST]), dice.choice([0, 23]))
        elif roll < 13:
            say("charge", dice.choice([0, 257, (size - 8) // 8 + 1, 2**16 + n, 2**32 + n, MOST]), dice.choice([0, n]))
        elif roll < 14:
            say("charge", n, dice.choice([n, n + 1, 256, 2**16, 2**32, 2**32 + 1, MOST]))
        else:
            say("charge", n, dice.choice([0, n - 1, dice.randrange(n)]))
    for s in range(n):
        say("charge", n, s)


if len(sys.argv) > 1:
    for k in range(int(sys.argv[2]), int(sys.argv[2]) + int(sys.argv[1])):
        calls(random.Random(k))
    sys.exit()

# ---- the lists of account_test

BENCH = """
entry 0 0 1 1 65535 0 0
entry 1 30 0 2 1 1 1
entry 2 500 1 3 65535 1 5000
entry 3 1000 1 1 1 0 0
"""
BOTH = """
charge 2 0
charge 2 1
"""


def one(n, time, target, kind, source, value):
    script("entry 0 %d %d %d %d 4294967295 %d\nread %d 24" % (time, target, kind, source, value, n))


def one_of_two(*numbers):
    one(2, *numbers)
    script(BOTH)


# the worked numbers
script("open 2 5 7 24" + BOTH + BENCH + "read 2 96" + BOTH + "sum 2\nread 2 96" + BOTH + "sum 2")
script("open 2 1 100 24" + BOTH + "read 2 96" + BOTH)

# 7 and 9
script("open 2 5 7 2064")
one_of_two(0, 1, 1, POSTED, 0)
for n in (0, 257, 2**16 + 2, 2**32 + 2, MOST):
    script("open {0} 1 1 2064\nread {0} 23\ncharge {0} 18446744073709551615".format(n))
script(BOTH)
for n, last in ((1, 0), (256, 255)):
    for size in (7 + 8 * n, 8 + 8 * n):
        script("open {0} 5 7 {1}\nread {0} 23\ncharge {0} {0}\ncharge {0} {2}".format(n, size, last))
script("open 2 5 7 24")
for station in (2, 256, 2**32, MOST):
    script("charge 2 %d" % station)

# 19
script("open 2 5 7 24" + BENCH + "read 2 23\nread 2 25\nread 2 32\nread 2 36" + BOTH + "read 2 0" + BOTH + "read 2 24" + BOTH)
script("open 2 5 7 24")
for target, source in ((2, POSTED), (65535, POSTED), (1, 2), (1, 65534), (1, 0), (0, POSTED)):
    one_of_two(0, target, 1, source, 0)
for time in (H + 1, MOST, H):
    one_of_two(time, 1, 1, POSTED, 0)
for kind, value in ((0, 0), (4, 0), (2**16 + 1, 0), (2**32 - 1, 0), (1, 1), (1, 2**16), (3, 2**32 - 1)):
    one_of_two(0, 1, kind, POSTED, value)
for value in (2, 4 * 256, 2**16 + 1, 2**32 - 1, 1 + 3 * 256):
    one_of_two(0, 1, 2, 0, value)
script("open 2 5 7 24" + BENCH + "read 2 96\nentry 3 1000 2 1 1 0 0\nread 2 96" + BOTH)

# the shortest and the longest line
script("open 1 5 7 16")
for numbers in ((1, 1, POSTED, 0), (0, 1, 1, 0), (0, 2, 0, 1), (0, 2, 0, 768)):
    one(1, 0, *numbers)
script("charge 1 0\nopen 256 1 100 2056")
for group in (((256, 1, POSTED, 0), (255, 1, 256, 0), (255, 2, 255, 1024)), ((255, 1, POSTED, 0), (254, 2, 255, 255), (0, 2, 255, 1023))):
    for numbers in group:
        one(256, 0, *numbers)
    for station in (0, 1, 254, 255):
        script("charge 256 %d" % station)

# 20
script("open 2 4294967295 1 24\nput 1 %d" % ((2**32 - 1) * (2**32 + 1 - 2)))
script("entry 0 0 1 1 65535 0 0\nentry 1 0 1 1 65535 0 0\nread 2 48" + BOTH)
for numbers in ((1, 1, POSTED, 0), (1, 2, 1, 1), (1, 3, POSTED, 0), (0, 2, 1, 1)):
    one_of_two(0, *numbers)
script("read 2 0" + BOTH)
script("open 2 4294967295 1 24\nput 1 %d" % (MOST - (2**32 - 1) + 1))
script("entry 0 0 0 2 1 0 1\nentry 1 0 1 1 65535 0 0\nread 2 48" + BOTH)
script("entry 0 0 1 1 65535 0 0\nentry 1 0 0 0 1 0 1\nread 2 48\nread 3 48" + BOTH)
script("open 2 0 1 24\nput 0 %d" % (MOST - 1))
script("entry 0 0 0 2 1 0 1\nentry 1 0 0 2 1 0 1\nread 2 48" + BOTH + "read 2 24" + BOTH)
one_of_two(0, 0, 1, POSTED, 0)
script("open 2 5 7 24\nput 0 %d\nput 1 %d" % (MOST - 7, MOST - 10))
script(BENCH + "read 2 96" + BOTH + "read 2 96" + BOTH)

# the bytes after an account
script("open 2 4294967295 4294967295 34")
one_of_two(0, 1, 1, POSTED, 0)
print(" 165 165")
