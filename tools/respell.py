#!/usr/bin/env python3
"""Brings the names of this repository's definitions and lemmas to snake case.

usage: tools/respell.py [ROOT]

Renames each definition, constructor, record field and lemma that a file right in a crate's specs/ or proofs/ declares with a dash
in its name, everywhere in crates/. Names that a file also takes from the library are listed and left, and so are two names that would
fall together.
It was run once, right after the kit's own script, when the repository moved to a newer Rattle (docs/PORT.md).
"""
import os
import re
import sys

NAME = r"[A-Za-z0-9_'\-\u0370-\u03ff\u2080-\u209f\u2115\u2124]+"
DECLARED = re.compile(rf"^\s*(?:abbrev |unfoldable )?(?:pub )?(?:data |record |abbrev |ruleset )?(?:pub )?({NAME})(?:\s*:|\s*=)(?!=)", re.M)
TAKEN = re.compile(r"^\s*(?:ghost )?use (?:Rattle\.std|Prim|borrow|mathlib|lib)\..*$", re.M)
TOKEN = re.compile(rf"(?<![\w'\-\u25cc])({NAME})(?![\w'\-\u25cc])")


def files(root, *endings):
    for folder, dirs, names in os.walk(root):
        dirs[:] = sorted(d for d in dirs if d != "out")
        for name in sorted(names):
            if name.endswith(endings):
                yield os.path.join(folder, name)


def text(path):
    with open(path, encoding="utf-8", errors="replace") as f:
        return f.read()


def declared(crates):
    dashed, plain = set(), set()
    for crate in sorted(os.listdir(crates)):
        for part in ("specs", "proofs"):
            folder = os.path.join(crates, crate, part)
            if not os.path.isdir(folder):
                continue
            for name in sorted(os.listdir(folder)):
                if name.endswith(".antt"):
                    for found in DECLARED.findall(text(os.path.join(folder, name))):
                        (dashed if "-" in found.strip("-") else plain).add(found)
    return dashed, plain


def main():
    root = sys.argv[1] if sys.argv[1:] else "."
    crates = os.path.join(root, "crates")
    dashed, plain = declared(crates)
    theirs = set()
    for path in files(crates, ".antt", ".rt"):
        for line in TAKEN.findall(text(path)):
            theirs.update(t for t in TOKEN.findall(line) if t in dashed)
    to = {name: name.replace("-", "_") for name in dashed - theirs}
    taken = {}
    for name, new in sorted(to.items()):
        taken.setdefault(new, []).append(name)
    together = {name for new, names in taken.items() if len(names) > 1 or new in plain for name in names}
    for name in sorted(together):
        print(f"falls together: {name}")
    for name in sorted(theirs):
        print(f"the library has it too: {name}")
    count = 0
    for path in files(crates, ".antt", ".rt"):
        old = text(path)
        new = TOKEN.sub(lambda m: to[m[1]] if m[1] in to and m[1] not in together else m[1], old)
        if new != old:
            count += 1
            with open(path, "w", encoding="utf-8") as f:
                f.write(new)
    print(f"{len(to) - len(together)} names, {count} files")


main()
