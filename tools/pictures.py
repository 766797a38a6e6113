#!/usr/bin/env python3
"""The pictures of the front page, as SVG: docs/floors.svg, from crates.txt, and docs/rollback.svg, from the bench's example.

  python3 tools/pictures.py          writes both
  python3 tools/pictures.py check    says which is not what the script would write
"""
import os
import re
import sys
import textwrap

from worked import Engine

ROOT = os.path.join(os.path.dirname(os.path.abspath(__file__)), "..")
HEAD = '<svg xmlns="http://www.w3.org/2000/svg" width="%d" height="%d" viewBox="0 0 %d %d" font-family="sans-serif" font-size="12" fill="#333">\n<rect x="0" y="0" width="%d" height="%d" fill="#fff"/>\n'
WIDE = 920


def picture(tall, lines):
    return HEAD % (WIDE, tall, WIDE, tall, WIDE, tall) + "".join(line + "\n" for line in lines) + "</svg>\n"


def text(x, y, words, more=""):
    return '<text x="%d" y="%d"%s>%s</text>' % (x, y, more, words)


# ---- the floors


def floors():
    """The sections of crates.txt from the ground up: a short title and the crates. A title is a comment that a crate follows."""
    known, found, comment = set(), [], None
    with open(os.path.join(ROOT, "crates.txt")) as f:
        for line in f.read().splitlines():
            if line.startswith("#"):
                comment = line[1:].strip()
            elif line:
                name, needs = line.split(":")
                name = name.split()[0]
                kit = {"io", "libc", "os", "bytes", "check"}
                assert set(needs.split()) <= known | kit, name + " stands on a crate that is not below it"
                known.add(name)
                if comment:
                    found.append((re.split("[,:]", comment)[0], []))
                    comment = None
                found[-1][1].append(name)
    return found


def rows(names):
    """The crates of a floor in rows that are not too wide, the lowest first: each name with its place."""
    made, x = [[]], 0
    for name in names:
        wide = 37 * len(name) // 5 + 16
        if x + wide > WIDE - 215:
            made.append([])
            x = 0
        made[-1].append((name, x, wide))
        x += wide + 6
    return made


def floors_picture():
    lines, y = [], 10
    for at, (title, names) in reversed(list(enumerate(floors()))):
        made = rows(names)
        tall = 28 * len(made) + 10
        words = textwrap.wrap(title, 22)
        tall = max(tall, 15 * len(words) + 12)
        lines.append('<rect x="10" y="%d" width="%d" height="%d" fill="%s"/>' % (y, WIDE - 20, tall, "#eaf2f7" if at % 2 else "#f6f9fb"))
        lines += [text(20, y + 20 + 15 * k, word, ' font-weight="bold"') for k, word in enumerate(words)]
        for k, row in enumerate(made):
            top = y + tall - 28 * (k + 1) - 3
            for name, x, wide in row:
                lines.append('<rect x="%d" y="%d" width="%d" height="22" rx="3" fill="#fff" stroke="#3a7ca5"/>' % (x + 200, top, wide))
                lines.append(text(x + 200 + wide // 2, top + 15, name, ' text-anchor="middle"'))
        y += tall + 4
    return picture(y + 6, lines)


# ---- a rollback

PLAN = [dict(parent=0, calm=1000, spring=200, threshold=5000, hop=30, noise=0, seed=1)] * 2
FIRST = [("post", 1, 0, 1, 0), ("lowest",), ("lowest",), ("lowest",)]
LATE = [("post", 1, 500, 3, 5000)]
AGAIN = [("lowest",), ("lowest",)]
KINDS = {1: "reading", 2: "frame", 3: "level"}


def states():
    """What is held after each part of the bench's example: every event, and whether it has run."""
    engine, shown = Engine(PLAN, 16, 64, 64), []
    for calls in (FIRST, LATE, AGAIN):
        for name, *words in calls:
            getattr(engine, name)(*words)
        shown.append({key: (KINDS[matter[0]], key in engine.before) for key, matter in engine.matter.items()})
    return shown


def rollback_picture():
    first, late, again = states()
    titles = [
        "1. Three events have run. Two that the last of them sent wait.",
        "2. A level comes late, at 500. The reading at 1000 is taken back, and the frame and the reading that it sent are gone.",
        "3. Run again in order: the level counts, so the next reading comes after 200 ms instead of 1000.",
    ]
    lines = []
    for k, (title, shown, before) in enumerate(zip(titles, (first, late, again), ({}, first, late))):
        y = 170 * k
        lines.append(text(20, y + 26, title, ' font-weight="bold" font-size="13"'))
        place = {1: y + 70, 0: y + 135}
        for station in (1, 0):
            lines.append(text(20, place[station] + 4, "station %d" % station))
            lines.append('<path d="M90 %dH890" stroke="#ccc"/>' % place[station])
        gone = {key: value for key, value in before.items() if key not in shown}
        for key, (what, run) in sorted({**gone, **shown}.items()):
            x, taken = 100 + key[0] * 38 // 100, before.get(key, ("", False))[1] and not run
            if key in gone:
                look = 'fill="none" stroke="#bbb" stroke-dasharray="2 2"'
            elif taken:
                look = 'fill="#fff" stroke="#e8871e" stroke-width="3"'
            else:
                look = 'fill="%s" stroke="#3a7ca5" stroke-width="2"' % ("#3a7ca5" if run else "#fff")
            lines.append('<circle cx="%d" cy="%d" r="7" %s/>' % (x, place[key[1]], look))
            more = ' text-anchor="middle"' + (' fill="#999"' if key in gone else "")
            lines += [text(x, place[key[1]] - 13, what, more), text(x, place[key[1]] + 22, key[0], more)]
    y = 530
    legend = [
        ('fill="#3a7ca5" stroke="#3a7ca5"', "has run"),
        ('fill="#fff" stroke="#3a7ca5" stroke-width="2"', "waits"),
        ('fill="#fff" stroke="#e8871e" stroke-width="3"', "taken back: waits again"),
        ('fill="none" stroke="#bbb" stroke-dasharray="2 2"', "gone"),
    ]
    x = 100
    for look, words in legend:
        lines.append('<circle cx="%d" cy="%d" r="7" %s/>' % (x, y, look))
        lines.append(text(x + 14, y + 4, words))
        x += 60 + 7 * len(words)
    return picture(555, lines)


def main():
    stale = []
    for name, drawn in (("floors.svg", floors_picture()), ("rollback.svg", rollback_picture())):
        path = os.path.join(ROOT, "docs", name)
        if sys.argv[1:] == ["check"]:
            with open(path) as f:
                stale += [] if f.read() == drawn else [name]
        else:
            with open(path, "w") as f:
                f.write(drawn)
    if stale:
        sys.exit("not as tools/pictures.py writes it: " + ", ".join(stale))


if __name__ == "__main__":
    main()
