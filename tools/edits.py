#!/usr/bin/env python3
"""tools/edits.py [--said FILE]: a quick look at every must-fail edit, with no check.

Says where an `old:` text does not stand in its file just once. With --said it reads what `rt ci` or `rt must-fail` printed, and says which
edits were bad, or were refused for their shape and not because a fact fails. Exit status 1 if there are any.
"""
import re
import sys
from pathlib import Path

# what rt says where it notices, and an error of a name, which it may print over several lines and then not notice
SHAPE = re.compile(r"^rt: must-fail (\S+)\.edit: .*(only because a proof file names what the edit took away|error: `[^`]+`: (record|module) `|has no field `|is not in scope)")
BAD = re.compile(r"^rt: (?:must-fail |crates/)(\S+)\.edit: BAD EDIT")
TOP = Path(__file__).resolve().parent.parent


def faults(edit):
    """What is wrong with an edit, its replacements made one after another."""
    crate = edit.parent.parent
    texts, file, old, pairs = {}, None, None, 0
    for line in edit.read_text(encoding="utf-8").splitlines():
        if line.startswith("file: "):
            file = crate / line[len("file: ") :]
            if not file.is_file():
                yield f"names no file of the crate: {line}"
                return
            texts.setdefault(file, file.read_text(encoding="utf-8"))
        elif line.startswith("old: "):
            old = line[len("old: ") :]
        elif line.startswith("new:") and file and old:
            pairs += 1
            if (count := texts[file].count(old)) != 1:
                yield f"its `old:` stands {count} times in {file.relative_to(TOP)}: {old}"
            texts[file] = texts[file].replace(old, line[len("new:") :].removeprefix(" "))
            old = None
    if not pairs:
        yield "has no `old:` and `new:` pair"


def told(said):
    """What is wrong with edits by what a run printed of them: the edit, and the fault."""
    for line in said.splitlines():
        if found := BAD.match(line):
            yield found[1], "is bad: " + line.split("BAD EDIT", 1)[1].lstrip(": ")[:200]
        elif found := SHAPE.match(line):
            yield found[1], "was refused for its shape"


def main():
    if sys.argv[1:2] == ["--said"]:
        bad = list(told(Path(sys.argv[2]).read_text(encoding="utf-8", errors="replace")))
        for edit, fault in bad:
            print(f"{edit}: {fault}")
        return 1 if bad else 0
    edits = sorted(TOP.glob("crates/*/must-fail/*.edit"))
    bad = [(edit, fault) for edit in edits for fault in faults(edit)]
    for edit, fault in bad:
        print(f"{edit.parent.parent.name}/{edit.stem}: {fault}")
    print(f"{len(edits)} edits, {len(bad)} at fault")
    return 1 if bad else 0


if __name__ == "__main__":
    sys.exit(main())
