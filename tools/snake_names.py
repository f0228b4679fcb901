#!/usr/bin/env python3
"""Brings the repository's own definitions and lemmas to the library's spelling, after port.py has run.

usage: python3 tools/snake_names.py [--list]      at the top of the repository; --list only prints old and new

A definition, a lemma, a field and a constructor that begins with a small letter are in snake case: `recordOf`
becomes `record_of`. In a lemma's name a dash joins two names, each of a definition or a type; a plain word is
joined by `_`: `ring-push` keeps its dash, `shut-line` becomes `shut_line`. Names that Rattle makes of the code (goals,
steps, fields of `c`) and names of the library keep their spelling. It stops where two names would fall together.
"""

import os
import re
import sys

HEAD = re.compile(r"^\s*(?:(?:abbrev|unfoldable|ruleset) +)*(?:pub +)?([a-z][\w'-]*)((?: +(?:\([^:]*:[^:]*\)|\{[^}]*\}))*) *:(?!:)")
IMPORT = re.compile(r"use ([\w.+·-]+)\.\{([^}]*)\}")
TOKEN = re.compile(r"(?<![\w'-])([a-z][\w'-]*)(?![\w'-])")
LIBRARY = "length take drop map append set get_or replicate reverse sum mod some none".split()


def texts(root):
    for folder, dirs, files in os.walk(os.path.join(root, "crates")):
        dirs[:] = sorted(d for d in dirs if d not in ("out", "data"))
        for f in sorted(files):
            if f.endswith((".antt", ".rt", ".edit")):
                yield os.path.join(folder, f)


def read(path):
    with open(path, encoding="utf-8") as f:
        return f.read()


def made(path):
    return path.endswith(("/Answers.antt", "/Invariants.antt", "/Choices.antt"))


def heads(path, text):
    for line in text.splitlines():
        m = HEAD.match(line)
        if m and not re.search(r": *\(?goal\.|: *goal\b", line):
            yield m.group(1)


def snake(part):
    part = "get_or" if part == "getD" else part
    if part[0].isupper():
        return part
    return re.sub(r"(?<=[a-z0-9_])([A-Z])(?![A-Z])", lambda m: "_" + m.group(1).lower(), part)


def renamed(name, names):
    parts = [snake(p) for p in name.split("-") if p]
    known = all(p in names or p[0].isupper() for p in parts)
    return ("-" if known else "_").join(parts)


def main():
    root = os.getcwd()
    files = {p: read(p) for p in texts(root)}
    antt = {p: t for p, t in files.items() if p.endswith(".antt")}
    own = {h for p, t in antt.items() for h in heads(p, t)}
    plain = {h for p, t in antt.items() if "/specs/" in p for h in heads(p, t) if "-" not in h}
    defined = {h for p, t in antt.items() for line in t.splitlines() if line.strip().startswith("abbrev") for h in heads(p, line)}
    names = {snake(h) for p, t in antt.items() if "/specs/" in p for h in heads(p, t) if "-" not in h} | set(LIBRARY)
    foreign = {}
    for p, t in files.items():
        foreign[p] = {w.split(" as ")[-1].strip() for m in IMPORT.finditer(t) if m.group(1).startswith(("Rattle.std", "borrow", "Rattle.core", "Prim")) for w in m.group(2).split(",")}
    new = {h: renamed(h, names) for h in own}
    # a definition has the plain name; a lemma that would have it too ends in _lem
    by = {}
    for h in sorted(own):
        by.setdefault(new[h], []).append(h)
    for b, hs in by.items():
        if len(hs) > 1:
            first = next((h for h in hs if h in plain), next((h for h in hs if h in defined), hs[0]))
            for h in hs:
                if h != first:
                    new[h] = b + "_lem"
    new = {a: b for a, b in new.items() if a != b}
    values = list(new.values()) + [h for h in own if h not in new]
    for b in sorted({b for b in values if values.count(b) > 1}):
        print(f"falls together: {b}")
    taken = set().union(*foreign.values())
    for a, b in sorted(new.items()):
        if b in taken or a in taken:
            print(f"the library's: {a} as {b}")
    if "--list" in sys.argv:
        for a, b in sorted(new.items()):
            print(f"{a}\t{b}")
        return

    for p, t in files.items():
        skip = foreign[p]
        goals = set(re.findall(r": *\(?goal\.([\w'-]+)", t)) if made(p) else set()

        def turn(m):
            w = m.group(1)
            if w not in new or w in skip or w in goals:
                return w
            before = m.string[: m.start()]
            if "-" in w and before.endswith(".") and not re.search(r"(^|[^\w.])[A-Za-z_]*\.$", before[-40:]):
                return w
            if "-" in w and re.search(r"(?<![\w'])(c|goal|l|g)\.$", before[-12:]):
                return w
            return new[w]

        def camel(m):
            return m.group(1) if "-" in m.group(1) else turn(m)

        if p.endswith(".antt"):
            lines = []
            for line in t.split("\n"):
                code, dashes, comment = line.partition("--")
                lines.append(TOKEN.sub(turn, code) + dashes + TOKEN.sub(camel, comment))
            out = "\n".join(lines)
        else:
            out = TOKEN.sub(camel, t)
        if out != t:
            with open(p, "w", encoding="utf-8") as f:
                f.write(out)


main()
