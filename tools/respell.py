#!/usr/bin/env python3
"""Brings the repository's own definitions and lemmas to snake case: respell.py [--list] at the top of the repository, once, after port.py.

Names that are declared in a specs/ or proofs/ file and spelled in camel case (le16Of, drivesTicks-add) become le16_of, drives_ticks-add, in every
.antt, .rt and .edit file below crates/ and in the pages but docs/LANDINGS.md. Types, facts and modules (a capital first) keep their spelling. A name that would fall
together with another in a file that speaks of both is not turned and is listed: give it another name in OTHER.
"""
import collections, glob, re, sys

# Names that the plain rule would let fall together with another: what they become instead.
OTHER = {}

WORD = re.compile(r"[A-Za-z0-9_'₀-₉][A-Za-z0-9_'₀-₉-]*")
DECLARED = re.compile(r"^\s*(?:(?:abbrev|unfoldable|pub|private|opaque)\s+)*([A-Za-z0-9_'-]+)\s*:(?!:)")


def snake(name):
    return "-".join(re.sub(r"(?<!^)([A-Z])", r"_\1", part).lower() if part[:1].islower() else part for part in name.split("-"))


def files(*kinds):
    found = []
    for kind in kinds:
        found += glob.glob(kind, recursive=True)
    return sorted(f for f in found if "/out/" not in f and "/target/" not in f)


def main():
    antt = files("crates/*/specs/**/*.antt", "crates/*/proofs/**/*.antt")
    declared = set()
    for path in antt:
        for line in open(path, encoding="utf-8"):
            m = DECLARED.match(line)
            if m:
                declared.add(m.group(1))
    turned = {n: OTHER.get(n, snake(n)) for n in declared if re.match(r"[a-z]", n) and re.search(r"[a-z0-9][A-Z]|[A-Z][A-Z]", n)}
    turned = {n: m for n, m in turned.items() if n != m}
    clashes = collections.defaultdict(list)
    into = collections.defaultdict(set)
    for n, m in turned.items():
        into[m].add(n)
    for m, ns in into.items():
        if len(ns) > 1:
            clashes[m].append("two names: " + " ".join(sorted(ns)))
    every = antt + files("crates/**/*.rt", "crates/*/must-fail/*.edit", "must-fail/**/*.edit")
    # A definition may have the name of a function of src/: what is written there, and the folder of that function's proof, does not count.
    for path in antt:
        text = re.sub(r"Rattle\.\w+\.proofs\.[\w.]+", "", open(path, encoding="utf-8").read())
        text = re.sub(r"--.*", "", text)
        words = set(WORD.findall(text))
        for n in words & turned.keys():
            if turned[n] in words:
                clashes[turned[n]].append(f"{path}: {n}")
    for path in files("crates/**/*.rt"):
        text = open(path, encoding="utf-8").read()
        ghosts = set(WORD.findall(" ".join(re.findall(r"^\s*ghost use [^;]*;", text, re.M))))
        for n in ghosts & turned.keys():
            if turned[n] in ghosts:
                clashes[turned[n]].append(f"{path}: {n}")
    if "--list" in sys.argv:
        for n, m in sorted(turned.items()):
            print(n, m)
    for m, where in sorted(clashes.items()):
        print("clash:", m, "|", "; ".join(where), file=sys.stderr)
    if "--list" in sys.argv or (clashes and "--all" not in sys.argv):
        return 1 if clashes else 0
    count = 0
    # The notes of earlier landings keep the names of their day.
    for path in every + [p for p in files("*.md", "docs/*.md") if not p.endswith("/LANDINGS.md")]:
        old = open(path, encoding="utf-8").read()
        new = WORD.sub(lambda m: turned.get(m.group(0), m.group(0)), old)
        if new != old:
            open(path, "w", encoding="utf-8").write(new)
            count += 1
    print(f"respell: {len(turned)} names, {count} files")
    return 0


sys.exit(main())
