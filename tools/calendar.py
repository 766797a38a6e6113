#!/usr/bin/env python3
"""What crate calendar_test writes, from a reading of document 01 ("Calendar" and the numbers) and of document 02, changes 3, 5 and 9, that shares nothing
with the crates: a dictionary of times, searched whole at each call.

  python3 tools/calendar.py > crates/calendar_test/stdout

With two numbers it writes so many drawn lists at all arities instead, from a seed on; `make calendars` makes their calls.

  python3 tools/calendar.py LISTS SEED
"""
import random
import sys

H = 1099511627775


def no(n):
    return "no %d" % n


class Calendar:
    """Arity, width and ring play a part in the count of words read alone."""

    def __init__(self):
        self.n, self.span, self.floor, self.times = 0, 1, 0, {}

    def open(self, n, a, w, size):
        if a not in (8, 16, 32, 64):
            return no(26)
        if not 1 <= w <= 1048576:
            return no(6)
        if not 1 <= n <= 256 or size < 128 * a**2 + 64 * n:
            return no(7)
        self.n, self.span, self.floor, self.times = n, w * a**2, 0, {}
        return "ok"

    def register(self, s, t):
        if s >= self.n:
            return no(9)
        if t > H:
            return no(11)
        if t < self.floor:
            return no(12)
        self.times[s] = t
        return "ok"

    def unregister(self, s):
        if s >= self.n:
            return no(9)
        self.times.pop(s, None)
        return "ok"

    def words(self):
        """One root word for each block from the floor's on, to the first in which a time lies, and a node word; 16 where there is none in 16 blocks."""
        first = self.floor // self.span
        for block in range(first, first + 16):
            if any(t // self.span == block for t in self.times.values()):
                return block - first + 1 + 1
        return 16

    def lowest(self):
        if not self.times:
            return no(14)
        s = min(self.times, key=lambda s: (self.times[s], s))
        return "%d %d %d" % (s, self.times[s], self.words())

    def extract(self):
        answer = self.lowest()
        if self.times:
            del self.times[int(answer.split()[0])]
        return answer

    def advance(self, f):
        if f > H + 1:
            return no(11)
        if f < self.floor:
            return no(12)
        if any(t < f for t in self.times.values()):
            return no(15)
        self.floor = f
        return "ok"


c = Calendar()


def say(call, *numbers):
    answer = getattr(c, call)(*numbers)
    print(" ".join([call] + [str(n) for n in numbers]) + ": " + answer)
    return answer


def script(text):
    for line in text.split("\n"):
        words = line.split()
        if words:
            say(words[0], *[int(w) for w in words[1:]])


# ---- drawn lists


def calls(dice, a, w):
    """A list of calls, refused openings before the accepted one. Times lie within a leaf, a block, the ring, or reach after it."""
    ring = 16 * a * a * w
    n = dice.choice([1, 2, 5, 40, 256])
    reach = dice.choice([w, ring // 16, ring // 2, ring + ring // 4, 3 * ring, 20 * ring])
    enough = 128 * a * a + 64 * n
    for _ in range(dice.randrange(3)):
        wrong = dice.choice([a + 1, 2 * a * a, 2**32 + a, 2**64 - a])
        say("open", dice.choice([n, 0, 257]), dice.choice([a, wrong]), dice.choice([0, w, 1048577]), dice.choice([0, enough - 1]))
    say("open", n, a, w, enough + dice.choice([0, 0, 1, 100]))
    if dice.randrange(8) == 0:
        say("advance", max(0, H - reach // 2))
    for _ in range(60 + dice.randrange(200)):
        roll, s = dice.randrange(16), dice.randrange(n + 1 + n // 16)
        least = min(c.times.values(), default=c.floor)
        if roll < 7:
            say("register", s, max(0, c.floor + dice.randrange(reach + 1) - dice.choice([0] * 30 + [1, 5])))
        elif roll < 8:
            say("register", s, dice.choice([least, c.floor, H, H + 1, 2**64 - 1]))
        elif roll < 9:
            say("unregister", s)
        elif roll < 11:
            say("lowest")
        elif roll < 14:
            say("extract")
        elif roll < 15:
            say("advance", c.floor + dice.randrange(reach // 16 + 1))
        else:
            say("advance", dice.choice([least] * 9 + [least + 1, max(0, c.floor - 1), dice.choice([H, H + 1, H + 2])]))


def many(count, seed):
    for k in range(seed, seed + count):
        dice = random.Random(k)
        calls(dice, (8, 16, 32, 64)[k % 4], dice.choice([1, 3, 64, 1000, 1048576]))


if len(sys.argv) > 1:
    many(int(sys.argv[1]), int(sys.argv[2]))
    sys.exit()

# ---- the lists of calendar_test

script("""
open 2 16 0 32896
open 2 16 1048577 32896
open 0 16 0 32896
open 0 16 64 32896
open 257 16 64 32896
open 3 16 64 32896
open 2 16 1048576 32896
open 2 16 1 32896
open 0 7 0 32832
open 0 8 0 32832
open 0 8 1 32832
open 1 0 64 32832
open 1 1 64 32832
open 1 4 64 32832
open 1 12 64 32832
open 1 128 64 32832
open 1 65552 64 32832
open 1 4294967312 64 32832
open 1 18446744073709551615 64 32832
open 1 8 64 8255
open 1 8 64 8256
open 1 16 64 32831
open 1 16 64 32832
open 1 32 64 131135
open 1 32 64 131136
open 1 64 64 524351
open 1 64 64 524352
open 4 16 64 33024
lowest
extract
register 4 1099511627776
register 3 1099511627776
unregister 4
unregister 3
register 3 1099511627775
lowest
advance 1099511627777
advance 1099511627776
advance 1099511627775
advance 1099511627774
register 2 1099511627774
register 2 1099511627775
lowest
unregister 2
lowest
extract
lowest
advance 1099511627776
register 2 1099511627775
lowest
open 4 16 64 33024
register 1 100
register 2 5000
unregister 1
lowest
unregister 1
register 1 9000
lowest
extract
extract
extract
open 4 16 64 33024
register 0 192
register 1 768
register 2 3072
register 3 12288
extract
extract
extract
extract
open 4 16 64 33024
advance 16384
register 1 278527
lowest
unregister 1
lowest
open 4 16 64 33024
register 0 262144
register 1 262143
register 2 600000
register 3 500000
extract
lowest
advance 16383
advance 16384
register 1 270000
extract
extract
lowest
register 0 500000
lowest
advance 400000
register 1 599999
extract
extract
extract
extract
extract
""")

# ties, in no order of their numbers
TIE = """
register 200 {0}
register 3 {0}
register 9 {0}
"""
MOVE = """
register 3 {0}
lowest
register 3 {1}
"""
TAKE = """
lowest
extract
extract
extract
"""
script("open 256 16 64 49152" + TIE.format(100) + TAKE)
script(TIE.format(300000) + TAKE)
script(TIE.format(300000) + "advance 65536" + TAKE)
for time in (70000, 900000):
    script(TIE.format(time) + MOVE.format(time + 1000, time) + TAKE)
script("""
register 1 70000
register 0 70001
lowest
register 0 70000
lowest
""")

# words read, of one time and of three
for arity in (8, 16, 32, 64):
    span = 64 * arity**2
    script("open 4 %d 64 524544\nlowest" % arity)
    for time in (0, span - 1, span, 15 * span - 1, 15 * span, 16 * span - 1, 16 * span):
        script("register 1 %d\nlowest" % time)
    for floor in (span - 1, span, 15 * span, 16 * span):
        script("advance %d\nlowest" % floor)
    script("extract\nextract")
script("""
open 4 16 64 33024
advance 16384
register 1 278528
lowest
register 2 278527
lowest
register 3 16384
extract
extract
extract
extract
open 4 64 1048576 524544
""")
for time in (2**32 - 1, 2**32, 2**36 - 1, 2**36):
    script("register 1 %d\nlowest" % time)
script("""
open 7 64 64 524736
register 5 4194303
register 6 4194302
unregister 5
lowest
register 5 4194303
extract
extract
lowest
open 4 16 64 33100
register 2 77
lowest
""")
print(" 165 165")


def draw(d):
    return 16807 * d % 2147483647


def drawn(n, arity, width, span, d, count):
    say("open", n, arity, width, 540672)
    for i in range(count):
        e = draw(d)
        station = e % (n + 1)
        t = draw(e) % span
        time = (c.floor // 2 if t % 16 == 0 else c.floor) + t
        kind = d // 4096 % 8
        if kind < 4:
            say("register", station, time)
        elif kind < 5:
            say("unregister", station)
        elif kind < 6:
            say("lowest")
        else:
            say("extract")
        d = draw(draw(draw(d)))
        if i % 8 == 7:
            say("advance", c.floor + d % (span // 8 + 1))


drawn(5, 16, 1, 9000, 1, 300)
drawn(256, 16, 64, 400000, 77, 300)
drawn(40, 16, 3, 20000, 12345, 300)
drawn(40, 16, 3, 40, 4321, 200)
drawn(256, 16, 1048576, 1000000000, 999, 200)
drawn(40, 8, 3, 9000, 11, 300)
drawn(256, 8, 64, 200000, 12, 200)
drawn(40, 32, 1, 40000, 13, 300)
drawn(256, 32, 64, 2000000, 14, 200)
drawn(40, 64, 1, 150000, 15, 300)
drawn(256, 64, 1048576, 4000000000, 16, 200)
