#!/usr/bin/env python3
"""Brings the names of this repository's own definitions, lemmas and record fields to snake case.

usage: python3 tools/spell_names.py [FOLDER]      once, right after the kit's port.py

`checkCounts` and `then-accepted` become `check_counts` and `then_accepted`. Where two names would fall together, the lemma gets `_lem` and the field
`_is`. Types and modules keep their capitals; names of the kit, names that the check makes for proofs, functions of src/, exported names and strings
stay as they are. In src/ only clauses and imports are turned. Nothing is left to a second run.
"""

import collections
import pathlib
import re
import sys

WORD = r"[^\s(){}.;,@\"«»\[\]\\]+"
TOKEN = re.compile(r"--[^\n]*|\"(?:[^\"\\]|\\.)*\"|«[^»]*»|" + WORD)
DECLARED = re.compile(r"^(?:(?:abbrev|pub|unfoldable|opaque) )*([^\s:(){},.]+) : (?!tie\.)", re.M)
BLOCK = re.compile(r"^(?:(?:abbrev|pub) )*(?:record|data) [^\n]*(?:\n +(?!pub )[^\n]*)*?\bwhere\n(?:(?:  [^\n]*|)\n)+", re.M)
MEMBER = re.compile(r"^  (?:pub )?([^\s:(){},.]+) : ", re.M)
SECTION = re.compile(r"^module _ [^\n]*(?:\n +[({][^\n]*)*? where\n(?:(?:  [^\n]*|)\n)+", re.M)
IN_SECTION = re.compile(r"^ +(?:(?:abbrev|pub|unfoldable|opaque) )*([^\s:(){},.]+) : ", re.M)
USE = re.compile(r"^(?:(?:unfoldable |pub )*use|ghost use) ([^\s{;]+?)\.\{([^}]*)\};?[ ]*$", re.M)
LOCAL = re.compile(r"^( +)([^\s:(){},.]+) : [^\n]*(?:\n\1 +[^\n]*)*\n(?:\1unfolding [^\n]*\n)?\1\2[ \n]", re.M)
CLAUSE = re.compile(r"\b(?:requires|ensures)\*?(?: \w+)? \{|^ *ghost (?!use)\w+: \{|^ghost use [^;]*;", re.M)


def snake(name):
    if not name[0].isalpha():
        return name
    turned = name if name[0].isupper() else re.sub(r"(?<=[a-z0-9])([A-Z])", lambda m: "_" + m[1].lower(), name)
    return turned.replace("-", "_")


def sources(top):
    for part in ("specs", "proofs"):
        yield from sorted(top.glob(f"crates/*/{part}/**/*.antt"))


def imported(text, crates):
    """The names that a file brings in from the kit."""
    theirs = set()
    for path, listed in USE.findall(text):
        owner = re.match(r"Rattle\.(\w+)", path)
        if not (owner and owner[1] in crates):
            theirs.update(one.strip().split(" as ")[-1].strip() for one in listed.split(","))
    return theirs


class Names:
    def __init__(self, top):
        self.crates = {p.name for p in (top / "crates").iterdir() if p.is_dir()}
        declared, blocks, self.kit = set(), [], set()
        for path in sources(top):
            text = path.read_text(encoding="utf-8")
            declared.update(DECLARED.findall(text))
            declared.update(n for section in SECTION.findall(text) for n in IN_SECTION.findall(section))
            declared.update(n for _, n in LOCAL.findall(text))
            blocks += BLOCK.findall(text)
            self.kit |= imported(text, self.crates)
        members = {m for b in blocks for m in MEMBER.findall(b)}
        together = collections.defaultdict(set)
        for name in declared:
            together[snake(name)].add(name)
        self.names = {}
        for to, some in together.items():
            if len(some) == 1 and to not in self.kit:
                self.names.update({n: to for n in some if n != to})
                continue
            # the definition keeps the plain name: that in camel case, or the one that was spelled so
            first = next((n for n in sorted(some) if re.search("[A-Z]", n[1:])), to if to in some else None)
            for n in some:
                self.names[n] = to if n == first else to + "_lem"
        self.names = {a: b for a, b in self.names.items() if a != b}
        taken = declared | set(self.names.values())
        self.members = {}
        for m in members:
            to = snake(m)
            used = any(m in MEMBER.findall(b) and any(snake(w) == to and w != m for w in re.findall(WORD, b)) for b in blocks)
            self.members[m] = to + "_is" if used and to in taken else to
        self.members = {a: b for a, b in self.members.items() if a != b}

    def antt(self, text, scope=None):
        scope = text if scope is None else scope
        theirs = imported(scope, self.crates)
        kit_heads = {a for p, a in re.findall(r"^use (\S+) as (\S+)$", scope, re.M) if not ((m := re.match(r"Rattle\.(\w+)", p)) and m[1] in self.crates)}
        in_blocks = [m.span() for m in BLOCK.finditer(text)]

        def one(found):
            word = found[0]
            if word.startswith("--"):
                return re.sub(r"\b[a-z][A-Za-z0-9]*[A-Z]\w*", lambda m: self.names.get(m[0], m[0]), word)
            if word.startswith(('"', "«")):
                return word
            if text[found.start() - 1 : found.start()] == ".":
                head = re.search("(%s)\\.\\Z" % WORD, text[max(0, found.start() - 200) : found.start()])
                head = head[1] if head else ""
                if head[:1].isupper() and head not in kit_heads:
                    return self.names.get(word) or self.members.get(word, word)
                return self.members.get(word, word)
            line = text[text.rfind("\n", 0, found.start()) + 1 : found.start()]
            is_member = word in self.members and (
                re.search(r"[{;]\s*\Z", text[max(0, found.start() - 80) : found.start()]) and re.match(r" (=|:) ", text[found.end() : found.end() + 3])
                or re.fullmatch(r"  (pub )?", line) and re.match(r" (=|:) ", text[found.end() : found.end() + 3]) and (word not in self.names or any(a <= found.start() < b for a, b in in_blocks) or "=" in text[found.end() : found.end() + 3])
            )
            if is_member:
                return self.members[word]
            if word in theirs:
                return word
            return self.names.get(word) or self.members.get(word, word)

        return TOKEN.sub(one, text)

    def rust(self, text):
        out, at = [], 0
        for found in CLAUSE.finditer(text):
            if found.start() < at:
                continue
            end = found.end()
            if not found[0].startswith("ghost use"):
                depth = 1
                while depth:
                    depth += (text[end] == "{") - (text[end] == "}")
                    end += 1
            out += [text[at : found.start()], self.antt(text[found.start() : end], text)]
            at = end
        return "".join(out) + text[at:]

    def page(self, text):
        """A page of docs/: names in code marks."""
        one = lambda m: self.names.get(m[0]) or self.members.get(m[0], m[0])
        return re.sub(r"`[^`\n]+`", lambda m: re.sub(WORD.replace("\\\\]", "\\\\]`"), one, m[0]), text)

    def edit(self, text):
        words = lambda m: self.names.get(m[0]) or self.members.get(m[0], m[0])
        return "\n".join(re.sub(WORD, words, l) if re.match(r"(old|new): ?", l) else l for l in text.split("\n"))


def main(argv):
    top = pathlib.Path(argv[1] if len(argv) > 1 else ".")
    names = Names(top)
    turns = [(p, names.antt) for p in sources(top)]
    turns += [(p, names.rust) for p in sorted(top.glob("crates/*/src/**/*.rt"))]
    turns += [(p, names.edit) for p in sorted(top.glob("crates/*/must-fail/*.edit"))]
    turns += [(p, names.page) for p in [top / "README.md", *sorted(top.glob("docs/*.md"))] if p.exists()]
    changed = 0
    for path, turn in turns:
        was = path.read_text(encoding="utf-8")
        now = turn(was)
        if now != was:
            path.write_text(now, encoding="utf-8")
            changed += 1
    print(f"{len(names.names)} names and {len(names.members)} fields, in {changed} files")
    return 0


if __name__ == "__main__":
    raise SystemExit(main(sys.argv))
