#!/usr/bin/env python3
"""Brings the names of this repository's own definitions and lemmas to today's spelling: snake case, as `le_at` for `leAt` and
`load_joined` for `load-joined`. Types, modules and constructors are in camel case already.

usage: tools/respell.py [--check]

It was run once, at the top, right after the kit's port.py. It turns whole words by their spelling: in specs/ and proofs/, in
what src/ says in ghost code and comments, and in must-fail/. Names that the kit's library has too stay in the files that
import them from there. --check says which names fall together, and writes nothing.
"""
import collections
import os
import re
import sys

WORD = re.compile(r"[^\s(){}.;,@\"«»]+")
DECLARED = re.compile(
    r"\s*(?:(?:pub|abbrev|unfoldable|data|record|opaque)\s+)*([a-z][A-Za-z0-9_'′₀-₉-]*)\s*(?:\(.*\)|\{.*\})?\s*:(?!=)"
)
# A field of a record beside a definition of that spelling.
OTHERWISE = {"none-unrun": "none_is_unrun"}
# A constructor beside a definition of that spelling.
CONSTRUCTORS = {"record_of": "record_call"}
IMPORT = re.compile(r"use\s+([A-Za-z_][\w.]*?)\.\{([^}]*)\}")


def files(kinds):
    for folder, dirs, names in os.walk("crates"):
        dirs[:] = sorted(d for d in dirs if d != "out")
        for name in sorted(names):
            if name.endswith(kinds):
                yield os.path.join(folder, name)


def snake(name):
    name = name.replace("′", "'")
    name = re.sub(r"(?<=[a-z0-9'])(?=[A-Z])", "_", name)
    return name.replace("-", "_").lower()


def text_of(path):
    with open(path, encoding="utf-8") as f:
        return f.read()


def declared():
    """Each name that is declared here, with the files that declare it."""
    found = collections.defaultdict(set)
    for path in files(".antt"):
        walk = path.endswith("/Proof.antt")
        for line in text_of(path).splitlines():
            m = DECLARED.match(line)
            if m and not (walk and (": tie." in line or m.group(1).endswith("-spec"))):
                found[m.group(1)].add(path)
    return found


def module(path):
    parts = path[: -len(".antt")].split(os.sep)
    return "Rattle." + ".".join(parts[1:])


def imports(text):
    """The names that a file imports, with the modules that they come from."""
    found = collections.defaultdict(set)
    for where, items in IMPORT.findall(text):
        for item in items.split(","):
            found[item.split(" as ")[0].strip()].add(where)
    return found


def foreign(text):
    """The names that a file imports from the kit's library."""
    own = lambda where: where.startswith("Rattle.") and os.path.isdir(os.path.join("crates", where.split(".")[1]))
    return {name for name, wheres in imports(text).items() if not any(own(w) for w in wheres)}


def lemmas(found):
    """What would get the name of a definition: by the kit's rule such a lemma's name ends in _lem. A pair of name and module for each."""
    groups = collections.defaultdict(set)
    for name in found:
        groups[snake(name)].add(name)
    apart = set()
    for path in files(".antt"):
        text = text_of(path)
        had, comes, kit = set(WORD.findall(text)), imports(text), foreign(text)
        for to, group in groups.items():
            here = (group | ({to} & kit)) & had
            if len(here) < 2:
                continue
            first = to if to in kit else min(here, key=lambda n: (not any("/specs/" in p for p in found[n]), "-" in n, n == to))
            for name in here - {first}:
                if path in found[name]:
                    apart.add((name, module(path)))
                for where in comes.get(name, ()):
                    apart.add((name, where))
    return apart


def turn(path, names, apart):
    text = text_of(path)
    kept = foreign(text)
    comes = imports(text)
    here = {n for n, m in apart if path.endswith(".antt") and (m == module(path) or m in comes.get(n, ()))}

    def word(m):
        w = m.group(0)
        if w in kept:
            return w
        dotted = m.start() and m.string[m.start() - 1] == "." and not m.string[: m.start()].endswith(".{")
        if w in here and not dotted:
            return CONSTRUCTORS.get(w, snake(w) + "_lem")
        return names.get(w, w)

    if path.endswith(".rt"):
        parts = re.split(r'(b?"(?:\\.|[^"\\])*")', text)
        return text, "".join(p if i % 2 else WORD.sub(word, p) for i, p in enumerate(parts))
    return text, WORD.sub(word, text)


def main():
    found = declared()
    names = {name: snake(name) for name in found if snake(name) != name} | OTHERWISE
    apart = lemmas({n: p for n, p in found.items() if n not in OTHERWISE})
    if "--check" in sys.argv[1:]:
        for name, where in sorted(apart):
            print(f"{name} of {where}: {snake(name)}_lem")
        for path in files((".antt", ".rt", ".edit")):
            old, new = turn(path, names, apart)
            if len(set(WORD.findall(old))) != len(set(WORD.findall(new))):
                both = collections.defaultdict(set)
                for a, b in zip(WORD.findall(old), WORD.findall(new)):
                    both[b].add(a)
                print(path, {b: a for b, a in both.items() if len(a) > 1})
        return
    turned = [(path, *turn(path, names, apart)) for path in files((".antt", ".rt", ".edit"))]
    for path, old, new in turned:
        if new != old:
            with open(path, "w", encoding="utf-8") as f:
                f.write(new)


main()
