#!/usr/bin/env python3
"""What the quote prints and draws, from a reading of documents 01 and 02 that shares nothing with the crates: the machine is that of tools/worked.py.

  python3 tools/quote.py PLAN SCENARIO          the standard output; what goes wrong, on standard error
  python3 tools/quote.py --svg PLAN SCENARIO    the picture

A PLAN that ends in .txt is text, as tools/plan.py reads it; any other is a plan's bytes. All arithmetic is in whole numbers, as the program's.
"""
import re
import struct
import sys

from plan import plan as plan_bytes
from worked import H, LARGEST, POSTED, steps, initial

FIELDS = ("parent", "calm", "spring", "threshold", "hop", "noise", "seed")
NUMBER = b"(0|[1-9][0-9]*)"
FORMS = {word: re.compile(word.encode() + (b" " + NUMBER) * count) for word, count in [("days", 1), ("read", 2), ("level", 3)]}
CAPACITY = 4096
HOUR = 3600000


class Wrong(Exception):
    """Why there is no quote, in words."""


# ---- the plan


def out_of_range(station, numbers):
    """The first number of a record that is out of range, in words."""
    parent, calm, spring, _, hop, noise, seed = numbers
    tests = [
        ("parent", 0 <= parent < max(station, 1)),
        ("calm period", calm >= 1),
        ("spring period", spring >= 1),
        ("hop delay", hop >= 1),
        ("noise limit", noise <= 2147483646),
        ("seed", 1 <= seed <= 2147483646),
    ]
    return next((word for word, right in tests if not right), None)


def line_of(data):
    """The stations of a plan's bytes: their numbers and their names."""

    def refused(why, number):
        raise Wrong("plan.bin is refused: %s (%d)" % (why, number))

    count = struct.unpack_from("<H", data)[0] if len(data) >= 2 else 0
    if not 1 <= count <= 256 or len(data) < 2 + 8 * count:
        refused("it has no station, more than 256, or too few bytes for their pairs", 1)
    pairs = [struct.unpack_from("<2I", data, 2 + 8 * k) for k in range(count)]
    at = 2 + 8 * count
    for k, (offset, length) in enumerate(pairs):
        if offset != at or not 26 <= length <= 42 or at + length > len(data):
            refused("station %d, its pair has a wrong offset or length" % k, 2)
        at += length
    if at < len(data):
        refused("bytes follow the last record", 3)
    stations = [struct.unpack_from("<H6I", data, offset) for offset, _ in pairs]
    names = [data[offset + 26:offset + length] for offset, length in pairs]
    for k, numbers in enumerate(stations):
        if out_of_range(k, numbers):
            refused("station %d, %s is out of range" % (k, out_of_range(k, numbers)), 4)
    for k, name in enumerate(names):
        if not all(0x21 <= b <= 0x7E for b in name):
            refused("station %d, a byte of its name is out of range" % k, 5)
    return [dict(zip(FIELDS, numbers)) for numbers in stations], names


# ---- the scenario


def order_of(line):
    for word, form in FORMS.items():
        match = form.fullmatch(line)
        numbers = [int(g) for g in match.groups()] if match else []
        if match and all(n < 2**64 for n in numbers) and (word != "days" or 1 <= numbers[0] <= 366):
            return word, numbers
    return None, []


def posts_of(text, count):
    """The days, and the posts with their numbers."""
    lines = text.split(b"\n")
    if lines[-1] == b"":
        lines.pop()
    days, posts, reads = 1, {}, False
    for at, line in enumerate(lines, 1):

        def refused(why, number):
            raise Wrong("scenario, line %d: %s (%d)" % (at, why, number))

        word, numbers = order_of(line)
        if word is None:
            refused("none of 'days DAYS' (1 to 366), 'read STATION TIME', 'level STATION TIME MM'", 8)
        if word == "days":
            days = numbers[0]
            continue
        station, time, *mm = numbers
        if station >= count:
            refused("the plan has no such station", 9)
        if mm and mm[0] > LARGEST:
            refused("the level is over %d mm" % LARGEST, 10)
        if time > H:
            refused("the time is after %d ms" % H, 11)
        if len(posts) == CAPACITY:
            refused("more than %d posts" % CAPACITY, 17)
        posts[(time, station, POSTED, len(posts))] = (3, mm[0]) if mm else (1, 0)
        reads = reads or not mm
    for station in range(1, 1 if reads else count):
        if len(posts) == CAPACITY:
            raise Wrong("scenario: more than %d posts, with a reading of each station at 0 (17)" % CAPACITY)
        posts[(0, station, POSTED, len(posts))] = (1, 0)
    return days, posts


# ---- the run


def run(plan, days, posts):
    """The states at the end, and the collector's heard and lost at the end of each hour."""
    states, hours, seen, now, ran = initial(plan), [], (0, 0), None, 0
    for key, _, states, waiting in steps(plan, posts, 24 * HOUR * days):
        # an event that has run is held until the commit time is after it, so those of one time are held together
        ran = ran + 1 if key[0] == now else 1
        now, state = key[0], states[key[1]]
        if max(state["heard"], state["lost"], state["sent"]) > LARGEST:
            raise Wrong("no figure: the count of a station would pass 32 bits (16)")
        if ran + len(waiting) > CAPACITY:
            raise Wrong("no figure: the line is too busy: more than %d events are held at %d ms (17)" % (CAPACITY, now))
        while len(hours) < now // HOUR:
            hours.append(seen)
        seen = (states[0]["heard"], states[0]["lost"])
    return states, hours + [seen] * (24 * days - len(hours))


def between(hours, first, last):
    """Heard and lost from the start of an hour to the start of another."""
    (h, l), (k, m) = hours[first - 1] if first else (0, 0), hours[last - 1]
    return k - h, m - l


# ---- the table, the days and the bars


def round_unit(most, parts):
    """The least of 1, 2, 5, 10, 20, 50, .. of which so many parts hold the most."""
    power = 1
    while True:
        for unit in (power, 2 * power, 5 * power):
            if most <= parts * unit:
                return unit
        power *= 10


def tenths(v):
    return "%d.%d" % (v // 10, v % 10)


def mean(heard, days):
    return tenths(10 * heard // days)


def row(station, name, config, state):
    heard, lost = state["heard"], state["lost"]
    share = tenths(1000 * lost // (heard + lost)) if heard + lost else "-"
    last = state["last"] if state["reached"] else "-"
    words = (station, name.decode(), config["parent"], heard, lost, share, state["sent"], last)
    return "%7d  %-16s %6d %10d %10d %6s %10d %13s" % words


def table(plan, names, states):
    yield "station  name             parent      heard       lost  lost%       sent    last heard"
    for s in range(len(plan)):
        yield row(s, names[s], plan[s], states[s])


def collector(days, hours):
    yield ""
    yield "    day      heard       lost"
    for d in range(days):
        yield "%7d %10d %10d" % (d + 1, *between(hours, 24 * d, 24 * d + 24))
    yield ""
    of_day = [[between(hours, k, k + 1) for k in range(h, 24 * days, 24)] for h in range(24)]
    sums = [(sum(heard for heard, _ in each), sum(lost for _, lost in each)) for each in of_day]
    unit = round_unit(max(heard for heard, _ in sums), 50)
    yield "   hour      heard       lost  # is %d heard" % unit
    for h, (heard, lost) in enumerate(sums):
        yield ("%7d %10d %10d  " % (h, heard, lost) + "#" * (heard // unit)).rstrip()
    yield ""
    heard = hours[-1][0]
    yield "collector: %d frames in %d day%s: %s a day" % (heard, days, "" if days == 1 else "s", mean(heard, days))


# ---- the picture

HEARD, LOST, MEAN, LIGHT, DARK = "#3a7ca5", "#e8871e", "#000", "#ddd", "#333"
LEFT, TOP, HIGH, SIDE = 90, 64, 280, 104
BASE = TOP + HIGH


def escaped(name):
    return name.decode().replace("&", "&amp;").replace("<", "&lt;").replace(">", "&gt;")


def picture(name, days, hours):
    each = [between(hours, 24 * d, 24 * d + 24) for d in range(days)]
    heard, lost = hours[-1]
    step = round_unit(max(h + l for h, l in each), 8)
    top = step
    while top < max(h + l for h, l in each):
        top += step
    slot = 740 // days
    bar = min(slot - slot // 4 - 1, 80)
    right = LEFT + slot * days

    def high(v):
        return v * HIGH // top

    def text(x, y, words, anchor="start"):
        return '<text x="%d" y="%d" text-anchor="%s">%s</text>' % (x, y, anchor, words)

    def rect(x, y, wide, tall, fill):
        return '<rect x="%d" y="%d" width="%d" height="%d" fill="%s"/>' % (x, y, wide, tall, fill)

    wide, tall = right + SIDE, BASE + 56
    yield '<svg xmlns="http://www.w3.org/2000/svg" font-family="sans-serif" font-size="12" fill="%s" shape-rendering="crispEdges"' % DARK
    yield '    width="%d" height="%d" viewBox="0 0 %d %d">' % (wide, tall, wide, tall)
    yield rect(0, 0, wide, tall, "#fff")
    title = "%s: %s frames a day" % (escaped(name) or "collector", mean(heard, days))
    yield '<text x="%d" y="24" font-size="17" font-weight="bold">%s</text>' % (LEFT, title)
    yield rect(LEFT, 37, 11, 11, HEARD)
    yield text(LEFT + 17, 47, "heard %d" % heard)
    yield rect(LEFT + 150, 37, 11, 11, LOST)
    yield text(LEFT + 167, 47, "lost %d" % lost)
    value = 0
    while value <= top:
        y = BASE - high(value)
        yield '<path d="M%d %dH%d" stroke="%s"/>' % (LEFT, y, right, LIGHT)
        yield text(LEFT - 8, y + 4, value, "end")
        value += step
    labels = 1 if days <= 31 else round_unit(days, 24)
    x = LEFT
    for d, (h, l) in enumerate(each):
        at = x + (slot - bar) // 2
        yield rect(at, BASE - high(h), bar, high(h), HEARD)
        if l:
            extra = max(high(h + l) - high(h), 2)
            yield rect(at, BASE - high(h) - extra, bar, extra, LOST)
        if (d + 1) % labels == 0:
            yield text(x + slot // 2, BASE + 18, d + 1, "middle")
        x += slot
    yield '<path d="M%d %dH%d" stroke="%s"/>' % (LEFT, BASE, right, DARK)
    yield text((LEFT + right) // 2, BASE + 40, "day", "middle")
    y = BASE - high(heard // days)
    yield '<path d="M%d %dH%d" stroke="%s" stroke-width="2" stroke-dasharray="6 4"/>' % (LEFT, y + 1, right, MEAN)
    yield text(right + 8, y, "mean")
    yield text(right + 8, y + 14, mean(heard, days))
    yield "</svg>"


def quote(data, text):
    """The lines of the standard output, and those of the picture."""
    plan, names = line_of(data)
    days, posts = posts_of(text, len(plan))
    states, hours = run(plan, days, posts)
    assert hours[-1] == (states[0]["heard"], states[0]["lost"])
    return [*table(plan, names, states), *collector(days, hours)], list(picture(names[0], days, hours))


def main():
    svg, (path, scenario) = sys.argv[1] == "--svg", sys.argv[-2:]
    with open(path, "rb") as f, open(scenario, "rb") as g:
        data = f.read()
        try:
            printed, drawn = quote(plan_bytes(data.decode()) if path.endswith(".txt") else data, g.read())
        except Wrong as why:
            sys.exit("quote: %s" % why)
    sys.stdout.write("".join(line + "\n" for line in (drawn if svg else printed)))


if __name__ == "__main__":
    main()
