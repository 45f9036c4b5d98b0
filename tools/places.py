#!/usr/bin/env python3
"""tools/places.py [COMMIT]: counts the places that docs/DESIGN-PASS.md is about, in the files as they are or at a commit, and lists them. One block a point."""
import re
import subprocess
import sys
from collections import defaultdict
from pathlib import Path


def sources(commit):
    if commit:
        names = subprocess.run(["git", "ls-tree", "-r", "--name-only", commit, "crates"], capture_output=True, text=True, check=True).stdout
        show = lambda n: subprocess.run(["git", "show", f"{commit}:{n}"], capture_output=True, text=True, check=True).stdout
    else:
        names = subprocess.run(["git", "ls-files", "-co", "--exclude-standard", "crates"], capture_output=True, text=True, check=True).stdout
        names = "\n".join(n for n in names.split() if Path(n).is_file())
        show = lambda n: open(n, encoding="utf-8").read()
    names = names.split()
    return {n: show(n) for n in names if n.endswith(".rt")}, [n for n in names if n.endswith(".antt")], show


def functions(text):
    """Each function: its name, its parameters by name and type, and its body."""
    for m in re.finditer(r"(?m)^( *)(?:pub )?fn (\w+)(?:<[^(]*>)?\(", text):
        depth, i = 1, m.end()
        while depth:
            depth += {"(": 1, ")": -1}.get(text[i], 0)
            i += 1
        head = text[m.end() : i - 1]
        start = re.search(rf"(?m)^{m[1]}(?:\S.*)?\{{$", text[i:])
        end = text.find(f"\n{m[1]}}}", i)
        body = text[i + (start.end() if start else 0) : end]
        params = re.findall(r"(\w+): ([^,]+?)(?:,|$)", re.sub(r"\s+", " ", head))
        yield m[2], params, body, text[i : i + (start.start() if start else 0)]


def say(point, what, places):
    print(f"{point} {what}: {len(places)}")
    for p in places:
        print(f"    {p}")


def main():
    src, antt, show = sources(sys.argv[1] if len(sys.argv) > 1 else None)
    crate = lambda n: n.split("/")[1]
    every = [(crate(n), f, ps, b, c) for n, t in src.items() for f, ps, b, c in functions(t)]
    enums = []
    for n, t in src.items():
        for m in re.finditer(r"(?ms)^(?:pub )?enum (\w+) \{\n(.*?)^\}", t):
            cases = re.findall(r"(?m)^    (\w+)", m[2])
            none = {"Refused", "Nothing", "Full", "NoRoom", "End", "Ended"} & {*cases}
            if none and len(cases) <= 3:
                enums.append(f"{crate(n)}::{m[1]} ({', '.join(cases)})")
    say("1a", "own enums of the shape of Option or Result", enums)
    say("1b", "early returns that hand a refusal on by hand", [f"{c}::{f}" for c, f, _, b, _ in every for _ in re.findall(r"if let (?:\w+::)*(?:Refused|Err)\((\w+)\) = \w+ \{\s*return (?:\w+::)*(?:Refused|Err)\(\1\);", b)])
    say("1c", "numbers that stand for nothing", [f"{crate(n)}: {m}" for n, t in src.items() for m in re.findall(r"(?m)^(?:pub )?const ((?:BOUNDARY|NONE|NOWHERE)\b.*);", t)])
    say("1d", "numbers for columns and kinds", [f"{crate(n)}: {m}" for n, t in src.items() for m in re.findall(r"(?m)^pub const (\w+: usize = \d);", t)] + [f"{c}::{f}: {m}" for c, f, _, b, _ in every for m in re.findall(r"kind == \d", b)])
    alike = defaultdict(list)
    for c, f, ps, b, k in every:
        plain = re.sub(r"//.*", "", b)
        own = {p: f"p{i}" for i, (p, _) in enumerate(ps)}
        plain = re.sub(r"\b[a-z_]\w*\b", lambda m: own.get(m[0], m[0]), plain)
        plain = re.sub(r"\b(?:u8|u16|u32|u64|f64|bool|usize|true|false)\b|\d[\d_.]*", "#", plain)
        plain = re.sub(r"\s+", "", plain)
        if len(plain) > 10 and not plain.startswith("["):
            alike[plain, len(ps)].append(f"{c}::{f}")
    twins = [", ".join(v) for v in alike.values() if len(v) > 1]
    say("2", "functions whose bodies differ in a type, a size or a constant alone", twins)
    loops = [f"{c}::{f}" for c, f, _, b, _ in every for _ in re.findall(r"(?m)^\s*while ", b)]
    say("3", "loops by `while`", loops)
    say("4", "equality, copying, conversion and the like by hand, by their names", [f"{c}::{f}" for c, f, *_ in every if re.match(r"(same_(list|ends)|equal_at|row_differs|differs?|copy(_bytes|_words)?|fill_\w+|code|first_value|second_value|\w+_words|lower|lesser|least|shorter|either)$", f) and f != "fill_words"])
    wide = [f"{c}::{f}" for c, f, _, _, k in every for _ in [0] if re.search(r"\bWide \d", k)]
    say("5a", "functions whose contracts say how wide the rows of a table are", wide)
    groups = {
        "a model's tables": ["detector_counts", "observable_counts", "component_counts", "component_detectors", "component_observables", "entries"],
        "output tables": ["out_probability", "out_detector_counts", "out_observable_counts", "out_entries"],
        "scratch of decomposition": ["starts", "last_of", "before"],
        "candidates": ["numbers", "masks", "words0", "words1"],
        "edges": ["edge_u", "edge_v"],
        "adjacency": ["adj_offsets", "adj"],
        "tables of a shot": ["tree", "flags", "stacks"],
        "tables of an input": ["probability_bits", "counts", "entries", "shot"],
    }
    say("5b", "functions that take several parameters which travel together", [f"{g}: {c}::{f}" for g, ws in groups.items() for c, f, ps, _, _ in every if {*ws} <= {p for p, _ in ps}])
    say("6", "rows of numbers in place of fields, as parameters", [f"{c}::{f}: {p}" for c, f, ps, _, _ in every for p, t in ps if re.search(r"\[\[(?:u8|u32|bool); \d\]\]", t)])
    say("7", "function pointers, boxed closures and dyn", [f"{crate(n)}: {m.strip()}" for n, t in src.items() for m in re.findall(r".*(?:\bdyn \w|[:(<] ?fn\().*", t)])
    answers = {n: len(re.findall(r"(?m)^pub ", show(n))) for n in antt if n.endswith("/Answers.antt")}
    lines = {n: show(n).count("\n") for n in answers}
    print(f"8 answers: {sum(answers.values())} in {len(answers)} files, of {sum(lines.values())} lines")
    kept = [f"{crate(n)}: {m.strip()}" for n, t in src.items() for m in re.findall(r"// kept: (.*)", t)]
    say("kept", "places that stay, with the reason beside them", kept)


if __name__ == "__main__":
    main()
