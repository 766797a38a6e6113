#!/usr/bin/env python3
"""Counts the places of each point of the design pass in crates/*/src (docs/DESIGN-PASS.md).

    tools/design_places.py          the counts
    tools/design_places.py --list   each place too
"""
import re
import sys
from collections import defaultdict
from pathlib import Path

ROOT = Path(__file__).resolve().parent.parent
FUNCTION = re.compile(r"^(?:    )?(pub )?(?:extern \"C\" )?fn (\w+)(<[^>]*>)?\(([^)]*)\)([^{;]*?)\n?(?=\s*(?:requires|ensures|\{))", re.M)


def sources():
    """Each file of src/ with its text, comments left out."""
    for path in sorted(ROOT.glob("crates/*/src/*.rt")):
        text = re.sub(r"//.*", "", path.read_text())
        yield path.relative_to(ROOT), text


def body_at(text, start):
    """The braces that begin at or after `start` on a line of their own or at a line's end, to the one that closes them."""
    at = text.index("{", start)
    depth = 0
    for i in range(at, len(text)):
        depth += {"{": 1, "}": -1}.get(text[i], 0)
        if depth == 0:
            return text[at : i + 1], i + 1
    return text[at:], len(text)


def functions(text):
    """Name, parameters, result, clauses and body of each function."""
    for m in FUNCTION.finditer(text):
        at = m.end()
        clauses = []
        while True:
            c = re.compile(r"\s*(requires|ensures)\s*(\w+)?\s*(?=\{)").match(text, at)
            if not c:
                break
            inside, at = body_at(text, c.end())
            clauses.append(" ".join(inside[1:-1].split()))
        try:
            body, _ = body_at(text, at)
        except ValueError:
            continue
        line = text.count("\n", 0, m.start()) + 1
        yield line, m.group(2), m.group(4), m.group(5), clauses, body


def shape(body):
    """A body with its names, numbers and strings taken out: two bodies of one shape differ in these alone."""
    body = re.sub(r'b?"[^"]*"', "S", body)
    names = {}
    words = {"let", "mut", "if", "else", "match", "while", "for", "in", "return", "loop", "as", "true", "false", "fn"}

    def name(m):
        w = m.group(0)
        if w in words:
            return w
        if w[0].isdigit():
            return "0"
        return "n"

    return re.sub(r"\s+", "", re.sub(r"\w+", name, body))


def places():
    out = defaultdict(list)
    shapes = defaultdict(list)
    pairs = defaultdict(list)
    facts = defaultdict(list)
    for path, text in sources():
        for m in re.finditer(r"^\s*(pub )?enum (\w+)", text, re.M):
            inside, _ = body_at(text, m.end())
            arms = re.findall(r"(\w+)(?=\s*[({,}])", re.sub(r"\([^)]*\)|\{[^{}]*\}", "", inside[1:-1]) + ",")
            out["1 enums"].append(f"{path}: {m.group(2)} {arms}")
        for m in re.finditer(r"^\s*(while|loop)\b[^{]*", text, re.M):
            line = text.count("\n", 0, m.start() + 1) + 1
            out["3 loops by while or loop"].append(f"{path}:{line}: {' '.join(m.group(0).split())}")
        for line, name, params, result, clauses, body in functions(text):
            where = f"{path}:{line}: {name}"
            if len(shape(body)) > 24:
                shapes[shape(body)].append(where)
            for clause in clauses:
                for fact in re.split(r" × ", clause):
                    fact = re.sub(r"[()]", "", fact).strip()
                    facts[fact].append(where)
            named = [" ".join(p.split()) for p in params.split(",") if ":" in p]
            for i, a in enumerate(named):
                for b in named[i + 1 :]:
                    pairs[(a, b)].append(where)
            texts = [p for p in named if re.search(r"\[u8\]|\[u8; ", p)]
            lens = [p for p in named if re.match(r"(n|len|count|size): (usize|u64|u32|u16)$", p)]
            if texts and lens:
                out["6 bytes with a count beside"].append(f"{where} {texts} {lens}")
            if re.search(r"\bu64\b", result or "") and re.match(r"(number|code|tell|kind|value)", name):
                out["1 numbers for kinds or refusals"].append(where)
            if re.match(r"(before|eq|same|less|cmp|compare|copy|to_|from_|print|put_|word$|number$|tell|no$|say)", name):
                out["4 functions named as what a derive or Display writes"].append(where)
            if re.search(r"\bfn\(|\bdyn\b", params):
                out["7 functions as values"].append(where)
    for group in shapes.values():
        if len(group) > 1:
            out["2 groups of functions of one shape"].append("; ".join(group))
    for pair, group in pairs.items():
        if len(group) > 4:
            out["5 pairs of parameters in five functions or more"].append(f"{pair}: {len(group)}")
    for fact, group in facts.items():
        if len(group) > 2:
            out["5 facts in three contracts or more"].append(f"{fact}: {len(group)}")
    return out


def main():
    found = places()
    for key in sorted(found):
        print(f"{key}: {len(found[key])}")
        if "--list" in sys.argv:
            for place in found[key]:
                print("   ", place)


main()
