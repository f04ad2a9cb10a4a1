#!/usr/bin/env python3
"""Spells the repository's own names as Rattle's style has them, in the crates below the current folder.

usage: tools/respell.py [--dry]        once, at the top, after the kit's port.py

A definition, lemma or variable in camel case becomes snake case (`charRange` is `char_range`), also as a part of a
longer name (`getRange-refused` is `get_range-refused`). A field of a record is a Rust identifier: its dashes become
underscores. Types and modules keep their camel case, Rust's own names and names of the libraries keep their spelling.
A line `meets:` tells where a new name stood in a file before.
"""

import os
import re
import sys

WORD = re.compile(r'[^\s(){}.;,@"«»\[\]λ∷]+')
CAMEL = re.compile(r"^[a-z][a-z0-9]*(?:[A-Z][A-Za-z0-9]*)+$")
# names of the libraries, and words of comments
KEEP = {"getD", "getDef", "decLe", "decLt", "rustLib"}
# a function of a slice beside a field of that name
OF = {"originalStart", "originalEnd", "normalizedStart", "normalizedEnd"}
# a lemma that would have its function's name, in the crates where it stands
LEMMAS = {"end_moved": ("behaviors",), "joined_by": ("behaviors", "spans"), "of_number": ("note",), "of_row": ("utf8",)}
# a file of specs/ cannot be called so any more
MOVED = [("crates/zulmyren/specs/Contracts.antt", "crates/zulmyren/specs/Promised.antt")]
RECORD = re.compile(r"^(\s*)(?:pub )?record ")
FIELD = re.compile(r"^(\s+)(?:pub )?(\S+)((?: \S+)*) : ")


def snake(word):
    return re.sub(r"(?<=[a-z0-9])[A-Z]", lambda m: "_" + m[0].lower(), word)


def files():
    for folder, dirs, names in os.walk("crates"):
        dirs[:] = sorted(d for d in dirs if d != "out")
        for n in sorted(names):
            if n.endswith((".antt", ".rt")):
                yield os.path.join(folder, n)


def fields(text):
    found, inside, head = set(), None, None
    for line in text.splitlines():
        m = RECORD.match(line)
        if m:
            head, inside = len(m.group(1)), None
        if head is not None:
            if line.rstrip().endswith("where"):
                inside, head = head, None
            continue
        if inside is not None:
            if line.strip() and len(line) - len(line.lstrip()) <= inside:
                inside = None
            elif re.match(r"^\s+pub (\S+) : ", line):
                name = line.split()[1]
                if "-" in name and re.fullmatch(r"[a-z][a-z0-9-]*", name):
                    found.add(name)
    return found


def main(dry):
    texts = {p: open(p, encoding="utf-8").read() for p in files()}
    own_fields = set()
    for p, t in texts.items():
        if p.endswith(".antt"):
            own_fields |= fields(t)

    def renamed(word, path):
        if path.split("/")[1] in LEMMAS.get(word, ()):
            return word + "_lem"
        if word in OF:
            return snake(word) + "_of"
        if word in own_fields:
            return word.replace("-", "_")
        parts = word.split("-")
        return "-".join(snake(x) if CAMEL.match(x.rstrip("'′₀₁₂₃₄₅₆₇₈₉")) and x not in KEEP else x for x in parts)

    changed = {}
    for p, t in texts.items():
        old = set(WORD.findall(t))
        for m in sorted(old):
            n = renamed(m, p)
            if n != m:
                changed.setdefault((m, n), []).append(p)
                if n in old:
                    print(f"meets: {p}: {m} becomes {n}")
    names = {n for _, n in changed}
    for n in sorted(names):
        olds = sorted(o for o, k in changed if k == n)
        if len(olds) > 1:
            print("falls together:", n, olds)
    if dry:
        for (o, n), ps in sorted(changed.items()):
            print(f"{o} -> {n}: {len(ps)}")
        return
    for p, t in texts.items():
        new = WORD.sub(lambda m: renamed(m[0], p), t)
        for a, b in MOVED:
            crate, old = a.split("/")[1], os.path.basename(a)[:-5]
            name = os.path.basename(b)[:-5]
            new = re.sub(rf"Rattle\.{crate}\.specs\.{old}\b", f"Rattle.{crate}.specs.{name}", new)
            if p == f"crates/{crate}/specs/Lib.antt":
                new = new.replace(f"mod {old}\n", f"mod {name}\n")
        if new != t:
            with open(p, "w", encoding="utf-8") as f:
                f.write(new)
    for a, b in MOVED:
        os.rename(a, b)
    print(len(changed), "names respelled")


main("--dry" in sys.argv[1:])
