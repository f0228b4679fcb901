#!/usr/bin/env python3
"""Lists the places of src/ that docs/DESIGN-PASS.md counts, point by point.

    tools/places.py [COMMIT] [--list]

Without a commit the files of the working tree are read. A place is a line (or, under points 2 and 5, a text that
stands several times); with --list each is printed, else the counts alone.
"""
import re
import subprocess
import sys

LISTED = "--list" in sys.argv
COMMIT = next((a for a in sys.argv[1:] if not a.startswith("-")), None)


def git(*words):
    return subprocess.run(["git", *words], capture_output=True, text=True, check=True).stdout


def files(suffix, folder):
    names = git("ls-tree", "-r", "--name-only", COMMIT) if COMMIT else git("ls-files")
    wanted = re.compile(rf"crates/[a-z_]+/{folder}/.*\.{suffix}$")
    for name in sorted(filter(wanted.match, names.split("\n"))):
        text = git("show", f"{COMMIT}:{name}") if COMMIT else open(name).read()
        yield name, text.split("\n")


SOURCES = list(files("rt", "src"))
PROOFS = list(files("antt", "proofs"))


def lines(pattern):
    """The lines of src/ in which the pattern is found, comments left out."""
    found = re.compile(pattern)
    for name, text in SOURCES:
        for number, line in enumerate(text, 1):
            if found.search(line) and not line.lstrip().startswith("//"):
                yield f"{name}:{number}: {line.strip()}"


def alike(run):
    """Runs of so many lines that stand twice, types, numbers and texts put aside."""
    seen, places = {}, []
    for name, text in SOURCES:
        code = [(n, l.strip()) for n, l in enumerate(text, 1)]
        code = [(n, l) for n, l in code if l not in ("", "}", "{", ")", "),", "];", "},") and l[:2] != "//" and not re.match(r"(ghost )?use |mod |ensures|requires|#\[", l)]
        plain = [re.sub(r'"[^"]*"', '""', re.sub(r"\b\d+\w*|\b[A-Z]\w*(::\w+)?", "T", l)) for _, l in code]
        last = -1
        for i in range(len(plain) - run + 1):
            key = "\n".join(plain[i:i + run])
            if key in seen and i > last:
                places.append(f"{name}:{code[i][0]} ~ {seen[key]}")
                last = i + run - 1
            seen.setdefault(key, f"{name}:{code[i][0]}")
    return places


def repeated_clauses():
    """The clauses that stand in three functions or more."""
    count = {}
    for name, text in SOURCES:
        for line in text:
            clause = re.match(r"\s+(?:requires|ensures)(?: \w+)? (\{.*\})", line)
            if clause:
                count.setdefault((name.split("/")[1], clause[1]), []).append(name)
    return [f"{crate}: {len(where)} times {clause}" for (crate, clause), where in count.items() if len(where) > 2]


def travelling():
    """The pairs of parameters, by name and type, that stand in three signatures of a crate or more."""
    count = {}
    for name, text in SOURCES:
        whole = "\n".join(text)
        for parameters in re.findall(r"\bfn \w+(?:<[^(]*>)?\(([^)]*)\)", whole):
            named = sorted({" ".join(p.split()) for p in re.split(r",(?![^<]*>)", parameters) if ":" in p and "rt:" not in p})
            for i, one in enumerate(named):
                for other in named[i + 1:]:
                    count[(name.split("/")[1], one, other)] = count.get((name.split("/")[1], one, other), 0) + 1
    return [f"{crate}: {many} times {one}, {other}" for (crate, one, other), many in count.items() if many > 2]


POINTS = {
    "1 own enums": lines(r"^\s*(pub(\(crate\))? )?enum "),
    "1 flags in structs": lines(r"^\s+(pub(\(crate\))? )?\w+: bool,"),
    "1 numbers for kinds, and answers without their reason": lines(r"fn (number|code)\(self\) -> u|-> \(Result<|-> Result<\(\), \(|is_ok\(\), true|unwrap_or\(0\)|-> u8$"),
    "2 runs of six lines that stand twice": alike(6),
    "3 loops": lines(r"^\s*(for .* in |while )"),
    "4 equality, conversion and printing by hand": lines(r"fn (is|number|text|word|words|eq|cmp|partial_cmp|clone)\(|impl.* (Debug|PartialEq|Ord|Clone)\b.* for "),
    "4 impls of Display, From, TryFrom and FromStr": lines(r"impl.*\b(Display|From|TryFrom|FromStr)\b.* for "),
    "5 clauses in three contracts or more": repeated_clauses(),
    "5 parameters that travel together": travelling(),
    "6 arrays, lengths and indices kept by hand": lines(r"^\s+(pub(\(crate\))? )?\w+: (&'a mut )?\[.*\],|^\s+(pub(\(crate\))? )?\w+: usize,"),
    "7 enums of steps and the matches that run them": lines(r"enum (Act|Step|Closing|Look|Verb|Pick|Way)\b|match \(?(act|step|closing|look|verb|command|pick)\b"),
    "7 closures, impl Fn and dyn": lines(r"\bdyn |impl Fn|: Fn(Once|Mut)?\("),
    "8 proof files of functions": [name for name, _ in PROOFS if re.search(r"/proofs/.+/(Answers|Invariants|Proof)\.antt$", name)],
}

for point, places in POINTS.items():
    places = list(places)
    print(f"{len(places):4} {point}")
    if LISTED:
        print("".join(f"       {place}\n" for place in places), end="")
print(f"{sum(len(t) - 1 for _, t in PROOFS):4} lines of proofs/")
