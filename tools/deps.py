#!/usr/bin/env python3
"""tools/deps.py [--check]: the crates and libraries that each crate names, as crates.txt has to list them.

Prints a line NAME: DEP DEP .. for each crate of crates.txt, in its order. With --check it prints only where crates.txt lists another set,
or a crate above one that it names, and its exit status is 1 if there are any.
"""
import re
import sys
from pathlib import Path

TOP = Path(__file__).resolve().parent.parent
KIT = ["check", "anyhow", "thiserror"]  # of the kit, what is listed where it is named
PROOFS = re.compile(r"Rattle\.([a-z_0-9]+)\.")
CODE = re.compile(r"(?<![\w:])([a-z_0-9]+)::")
COMMENT = re.compile(r"^\s*(//|--).*$", re.M)
REACHED = {"server": ["split_model"]}  # a crate whose type is reached by a field, and is not named


def listed():
    crates = {}
    for line in (TOP / "crates.txt").read_text().splitlines():
        name, colon, deps = line.split("#")[0].partition(":")
        if colon:
            crates[name.split()[0]] = deps.split()  # a static library has a word more
    return crates


def named(crate, known):
    found = set(REACHED.get(crate, []))
    for part in ("src", "specs", "proofs"):
        for file in (TOP / "crates" / crate / part).rglob("*.*t*"):
            text = COMMENT.sub("", file.read_text(encoding="utf-8"))
            found |= set(PROOFS.findall(text))
            if file.suffix == ".rt":
                found |= set(CODE.findall(text))
    return [name for name in known if name in found and name != crate]


def main():
    crates = listed()
    known, at, bad = [*crates, *KIT], {name: n for n, name in enumerate(crates)}, 0
    for crate, deps in crates.items():
        needs = named(crate, known)
        if "--check" not in sys.argv:
            print(f"{crate}:{''.join(' ' + name for name in needs)}")
        elif set(needs) != set(deps):
            bad += 1
            print(f"crates.txt: {crate} names {' '.join(needs)}, and {' '.join(deps)} is listed")
        elif below := [name for name in needs if at.get(name, -1) > at[crate]]:
            bad += 1
            print(f"crates.txt: {crate} stands above {' '.join(below)}")
    return 1 if bad else 0


if __name__ == "__main__":
    sys.exit(main())
