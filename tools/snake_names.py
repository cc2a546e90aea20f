#!/usr/bin/env python3
"""Spells the repository's own definitions, lemmas, fields and constructors in snake case.

usage: python3 tools/snake_names.py        at the top of the repository, once, right after port.py

A dash in a name that specs/ or proofs/ declare becomes an underscore; OTHER has the names for which that would not do. Names that
Rattle makes (goals and steps) keep their dashes, and so do lemmas whose name begins with a type or a fact, as `All-append`.
"""

import glob
import re
import sys

# facts, which are spelled as types
OTHER = {
    "Loads-encodings": "LoadsEncodings",
    "Fits-opening": "FitsOpening",
    "Fits-departures": "FitsDepartures",
    "Fits-addition": "FitsAddition",
    "Fits-additions": "FitsAdditions",
}

# names of a let, a λ or an import, outside comments
LOCAL = {"token-free", "held-unless", "cells-after", "spare-after", "new-fits", "old-fits", "now-is", "old-is", "rest-calm", "loop-calm", "loop-gains", "weight-fits"}

HEAD = re.compile(r"^\s*(?:(?:abbrev|unfoldable|pub|ghost|data|record|law)\s+)*([^\s:(){}\[\],;=.]+)\s*:")
FIELD = re.compile(r"^\s+pub ([^\s:(){}\[\],;=.]+)\s*:")
TOKEN = re.compile(r"(?<![\w'·◌\-])(\.?)([A-Za-z][\w'\-]*)")


def files(*patterns):
    return sorted(p for pattern in patterns for p in glob.glob(pattern, recursive=True) if "/out/" not in p)


def lines(path):
    with open(path, encoding="utf-8") as f:
        return f.read().splitlines()


def main():
    antt = files("crates/*/specs/**/*.antt", "crates/*/proofs/**/*.antt")
    names, fields, made = set(), set(), set()
    for path in antt:
        for line in lines(path):
            if line.lstrip().startswith("--"):
                continue
            head = HEAD.match(line)
            if not head:
                continue
            name = head.group(1)
            if ": goal." in line:
                made.add(name)
                continue
            names.add(name)
            if FIELD.match(line):
                fields.add(name)
    turned = {n: OTHER.get(n, n.replace("-", "_")) for n in names if "-" in n and n not in made and (n[0].islower() or n in OTHER)} | OTHER
    back = {}
    for old, new in sorted(turned.items()):
        for other in [m for m in names | made if m == new] + ([back[new]] if new in back else []):
            print(f"look: {old} would fall together with {other}")
        back[new] = old

    def turn(m):
        dot, name = m.groups()
        if name in LOCAL and not dot:
            return name.replace("-", "_")
        if name not in turned or dot and name not in fields:
            return m.group(0)
        return dot + turned[name]

    count = 0
    for path in files("crates/**/*.antt", "crates/**/*.rt"):
        with open(path, encoding="utf-8") as f:
            text = f.read()
        new = "".join(l if l.lstrip().startswith(("--", "//")) else TOKEN.sub(turn, l) for l in text.splitlines(keepends=True))
        if new != text:
            count += 1
            with open(path, "w", encoding="utf-8") as f:
                f.write(new)
    print(f"snake_names: {len(turned)} names in {count} files")


if __name__ == "__main__":
    sys.exit(main())
