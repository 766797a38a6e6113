#!/usr/bin/env python3
"""What crate generator_test writes, from document 01's formula and document 02's change 4, over Python's long integers: it shares nothing with the
crates. The rows are the tables of docs/GENERATOR.md.

  python3 tools/generator.py > crates/generator_test/stdout
"""

SEEDS = [1, 16807, 127772, 127773, 739806647, 1407677000, 2147480811, 2147483646]
OTHERS = [0, 2147483647, 2147483648, 4294967295]


def draw(seed):
    return 16807 * seed % 2147483647


def after(count, seed):
    for _ in range(count):
        seed = draw(seed)
    return seed


for count in [1, 2, 10000]:
    print(after(count, 1))
for seed in SEEDS:
    quotient, remainder = divmod(seed, 127773)
    low, high = 16807 * remainder, 2836 * quotient
    print(seed, quotient, remainder, low, high, low - high, draw(seed))
for number in OTHERS:
    print(number, draw(number))
