#!/usr/bin/env python3
"""What a quote is tried on, and what it says then, by tools/quote.py.

  python3 tools/quote_cases.py              prints what crate quote_refusals prints
  python3 tools/quote_cases.py names        prints its cases: the plan's file and the scenario's
  python3 tools/quote_cases.py write DIR    writes these files
  python3 tools/quote_cases.py pictures     prints what crate quote_picture_test prints

Every refusal that a plan or a scenario can meet is among the cases, and what is nearly one: then the whole quote is printed.
"""
import os
import sys

from plan import plan
from quote import Wrong, collector, picture, quote
from star_tariff import REFUSED, but, station, text

PLANS = {
    "good": plan(text(but(0, noise=1000000000))),
    "parent_of_the_first": plan(text(but(0, parent=1))),
    "calm_before_seed": plan(text(but(1, calm=0, seed=0))),
    "spring_0": plan(text(but(2, spring=0))),
    "hop_before_noise": plan(text(but(1, hop=0, noise=2147483647))),
    "seed_high": plan(text(but(2, seed=2147483647))),
    "chain": plan(text([station(1, 1, parent=max(k - 1, 0)) for k in range(256)])),
}
PLANS.update(REFUSED)

READ = b"read 1 0\n"
SCENARIOS = {
    "nothing": b"",
    "day": b"days 1\n",
    "last_days_hold": b"days 7\ndays 2",
    "empty_line": b"\n",
    "empty_after": b"days 1\n\n",
    "days_0": b"days 0\n",
    "days_366": b"days 366\ndays 1\n",
    "days_367": b"days 367\n",
    "leading_zero": b"days 01\n",
    "sign": b"days +1\n",
    "two_spaces": b"read  1 0\n",
    "space_after": b"read 1 0 \n",
    "carriage_return": b"days 1\r\n",
    "capital": b"Days 1\n",
    "too_few": READ + b"level 1 0\n",
    "too_many": b"read 1 0 0\n",
    "over_64_bits": b"read 1 18446744073709551616\n",
    "station_2": b"read 2 0\n",
    "station_3": READ + b"read 3 0\n",
    "station_64_bits": b"level 18446744073709551615 0 1\n",
    "level": READ + b"level 1 0 4294967295\n",
    "level_over": READ + b"level 1 0 4294967296\n",
    "station_before_level": b"level 3 0 4294967296\n",
    "time": b"read 1 1099511627775\n",
    "time_over": b"days 3\nread 1 1099511627776\n",
    "level_before_time": b"level 1 1099511627776 4294967296\n",
    "posts_4096": b"level 1 0 1\n" * 4095 + b"read 1 86400000\n",
    "posts_4097": b"level 1 0 1\n" * 4096 + READ,
    "posts_4095": b"level 1 0 1\n" * 4095,
    "full": b"level 1 0 1\n" * 4093 + READ,
    "busy": b"level 1 0 1\n" * 4094 + READ,
}
# what no plan and scenario of these meets
UNMET = """quote: no figure: the count of a station would pass 32 bits (16)
quote: no figure: a run is refused (18)
quote: no figure: the run did not come to its end
quote: the scenario is longer than 65536 bytes
"""
CASES = [("good", name) for name in SCENARIOS] + [(name, "day") for name in PLANS if name != "good"]


def said(case):
    try:
        return "\n".join(quote(PLANS[case[0]], SCENARIOS[case[1]])[0])
    except Wrong as why:
        return "quote: %s" % why


def made_up_hours():
    heard = lost = 0
    for h in range(24 * 366):
        heard += 13 * (h % 31) + 3
        lost += h % 23 if h % 7 == 0 else 0
        yield heard, lost


def pictures():
    made_up, named = list(made_up_hours()), b"<R&D>'\"]]>"
    for name, days, hours in [(b"", 9, [(0, 0)] * 216), (b"", 2, made_up)] + [(named, days, made_up) for days in (1, 31, 32, 366)]:
        yield from collector(days, hours[:24 * days])
        yield from picture(name, days, hours[:24 * days])


def main():
    if sys.argv[1:] == ["pictures"]:
        print("".join(line + "\n" for line in pictures()), end="")
    elif sys.argv[1:] == ["names"]:
        print("".join("%s.bin %s.txt\n" % case for case in CASES), end="")
    elif sys.argv[1:2] == ["write"]:
        files = dict({name + ".bin": data for name, data in PLANS.items()}, **{name + ".txt": data for name, data in SCENARIOS.items()})
        for name, data in files.items():
            with open(os.path.join(sys.argv[2], name), "wb") as f:
                f.write(data)
    else:
        print("".join(said(case) + "\n" for case in CASES) + UNMET, end="")


if __name__ == "__main__":
    main()
