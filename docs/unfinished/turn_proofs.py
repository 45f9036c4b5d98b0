#!/usr/bin/env python3
"""turn_proofs.py TOP CRATE NAMES [FN..]: turns the files Proof.antt of a crate, of the older form, to Invariants.antt and Answers.antt.

TOP is the top of the repository, NAMES the names.json that `rt check --generated DIR --old-names` writes in the crate's folder, once the crates below it
are proved. A line `left:` tells what is to be done by hand; `rt check` decides. The old files stay as Proof.antt.old.
"""
import json
import pathlib
import re
import sys

W = r"[^\s(){}.;,@\"«»\[\]\\]+"
norm = lambda s: re.sub(r"[-_]", "-", s)
strip = lambda s: re.sub(r"^(overflow-|nonzero-|slice-bounds-|bounds-|part-)", "", norm(s))


def contracts(top):
    out = {}
    for path in top.glob("crates/*/src/**/*.rt"):
        text = path.read_text(encoding="utf-8")
        crate = path.relative_to(top).parts[1]
        for m in re.finditer(r"(?m)^(?:    )?(?:pub(?:\([a-z]+\))? )?fn (\w+)[^{]*?(?=\n    (?:requires|ensures|ghost)|\n\{| \{)((?:\n    (?:requires|ensures|ghost)(?:.|\n)*?)?)(?=\n\{)", text):
            req = re.findall(r"(?m)^    requires\*?(?: (\w+))? \{", m[2])
            ens = re.findall(r"(?m)^    ensures\*?(?: (\w+))? \{", m[2])
            out[crate + "::" + m[1]] = {"requires": req, "ensures": ens}
    return out


def chunks(text):
    """use lines, and declarations: (comment, name, type, lines)"""
    uses, decls, comment = [], [], []
    lines = text.split("\n")
    i = 0
    while i < len(lines):
        line = lines[i]
        if not line.strip():
            comment = []
            i += 1
            continue
        if line.startswith("--"):
            comment.append(line)
            i += 1
            continue
        j = i + 1
        while j < len(lines) and (lines[j].startswith((" ", ")", "}", "]"))):
            j += 1
        block = lines[i:j]
        i = j
        if re.match(r"(unfoldable |pub )*use ", line):
            uses.append("\n".join(block))
            continue
        m = re.match(r"((?:abbrev |pub |unfoldable )*)(%s) :(?: |$)" % W, line)
        if m:
            decls.append({"comment": comment, "marks": m[1], "name": m[2], "sig": block, "body": []})
            comment = []
        elif decls:
            decls[-1]["body"].append(block)
        else:
            raise SystemExit("odd: " + line)
    return uses, decls


class Turn:
    def __init__(self, crate, fn, names, all_contracts, said):
        self.crate, self.fn, self.n, self.k, self.said = crate, fn, names, all_contracts, said
        self.places = {p[0]: p for p in names["places"]}
        self.steps = {}
        for p in names["places"]:
            if p[2][0]:
                self.steps.setdefault(norm(p[2][0]), (p[2][1], p[3], p))
        self.given = {}
        for a in names["arms"]:
            if a:
                for field, step, path in a[2]:
                    if path:
                        self.given.setdefault(norm(step), []).append((a[0], field, path))

    def clauses(self, of, kind):
        return self.k.get(of, {}).get(kind, [])

    def projected(self, base, segs, clauses):
        """base.requires with old projections on clauses"""
        if len(clauses) < 2:
            return base + "".join("." + s for s in segs)
        at, segs = 0, list(segs)
        while at < len(clauses) - 1:
            if segs and segs[0] == "0":
                segs.pop(0)
                break
            if segs and segs[0] == "1":
                segs.pop(0)
                at += 1
                continue
            rest = [f"{base}.{c}" for c in clauses[at:]]
            if segs:
                self.said.append(f"{self.fn}: projection {segs} of {base}")
            it = rest[-1]
            for r in reversed(rest[:-1]):
                it = f"({r}, {it})"
            return it
        return f"{base}.{clauses[at]}" + "".join("." + s for s in segs)

    def step(self, head, depth):
        base = lambda x: re.sub(r"-?\d+$", "", norm(x))
        chain, at = [], self.at
        while at is not None and at in self.places:
            chain.append(self.places[at])
            at = self.places[at][1]
        if depth < len(chain) and chain[depth][2][0] and norm(chain[depth][2][0]) == norm(head):
            return chain[depth]
        if base(head) in self.skewed and depth < len(chain) and chain[depth][2][0] and base(chain[depth][2][0]) == base(head):
            return chain[depth]
        for p in chain:
            if p[2][0] and norm(p[2][0]) == norm(head):
                return p
        same = [p for p in chain if p[2][0] and base(p[2][0]) == base(head)]
        if len(same) == 1:
            return same[0]
        return None

    def path(self, segs):
        """segs after c, old; the new text"""
        depth = 0
        while segs and segs[0] == "before":
            segs = segs[1:]
            depth += 1
        if not segs:
            return "c"
        head, rest = segs[0], segs[1:]
        if head in ("requires", "pre"):
            return self.projected("c.requires", rest, self.clauses(f"{self.crate}::{self.fn.split('.')[-1].lstrip('+')}", "requires"))
        if head == "args" and rest:
            return ".".join(["c.args", rest[0].replace("-", "_"), *rest[1:]])
        if head in ("args", "well-formed", "well_formed", "ranges", "type_inv", "auto", "utf8"):
            return ".".join(["c", head.replace("-", "_"), *rest])
        if norm(head) in self.given:
            for arm, field, path in self.given[norm(head)]:
                if rest[: len(path)] == path:
                    return ".".join(["c", arm, field, *rest[len(path):]])
            # a longer or shorter path
            self.said.append(f"{self.fn}: {'.'.join(segs)} of {self.given[norm(head)]}")
        p = self.step(head, depth)
        if p is None and head.endswith("_lem"):
            head = head[:-4]
            p = self.step(head, depth)
        if p is None and norm(head) in self.steps:
            p = self.steps[norm(head)][2]
            self.said.append(f"{self.fn}: step {head} of elsewhere")
        if p is not None:
            new, callee = p[2][1], p[3]
            old_words = {"taken": "true", "left": "false"} if re.match(r"if|.*-test$", norm(head)) else {"last": "new", "kept": "auto"} if callee else {"inv": "invariant"}
            rest = [{"type-inv": "type_inv", "well-formed": "well_formed"}.get(r, r) for r in rest]
            if rest and rest[0] in old_words:
                rest = [old_words[rest[0]], *rest[1:]]
            if rest and rest[0] in ("auto", "new") and callee and len(rest) > 1 and rest[1] in "01":
                which, rest, at = rest[0], rest[1:], 0
                while rest and rest[0] == "1":
                    rest, at = rest[1:], at + 1
                if rest and rest[0] == "0":
                    rest = rest[1:]
                params = self.n["params"].get(callee, [])
                rest = [which, params[at] if at < len(params) else "?"] + rest
            if rest and rest[0] == "ensures" and callee:
                return self.projected(f"c.{new}.ensures", rest[1:], self.clauses(callee, "ensures"))
            if norm(head).startswith("loop") and rest and rest[0] == "auto" and (len(rest) == 1 or not rest[1][0].isdigit()):
                rest = ["kept", *rest[1:]]
            if new.startswith("if-not-") and rest in (["true"], ["false"]):
                self.nots = True
                return f"(ap not c.{new}.{rest[0]})"
            if rest and rest[0] == "new" and len(rest) > 1:
                rest = ["new", rest[1].replace("-", "_"), *rest[2:]]
            if norm(head).startswith("loop") and rest and rest[0] not in ("invariant", "true", "false"):
                rest = [rest[0].replace("-", "_"), *rest[1:]]
            return ".".join(["c", new, *rest])
        self.said.append(f"{self.fn}: at {getattr(self, 'at', None)}: no step {head} ({'.'.join(segs)[:80]})")
        return ".".join(["c", *segs])

    def body(self, text, arg):
        """an answer's body with new paths; lets of paths are inlined"""
        aliases = {arg: []}
        let = re.compile(r"let (%s) = (%s)((?:\.%s)*) in(?=\s)\s*" % (W, W, W))

        def resolved(head, tail):
            return aliases[head] + [t for t in tail.split(".") if t]

        out, at = "", 0
        while True:
            m = let.search(text, at)
            if not m:
                break
            if m[2] in aliases:
                out += self.paths(text[at:m.start()], aliases)
                aliases[m[1]] = resolved(m[2], m[3])
                at = m.end()
            else:
                out += self.paths(text[at:m.end()], aliases)
                at = m.end()
        return out + self.paths(text[at:], aliases)

    def paths(self, text, aliases):
        def one(m):
            if m[0].startswith("--"):
                return m[0]
            head, *tail = m[0].split(".")
            if head not in aliases or (not tail and head in self.imported):
                return m[0]
            return self.path(aliases[head] + tail)

        return re.sub(r"--[^\n]*|(?<![^\s(\[{,;])%s(?:\.%s)*" % (W, W), one, text)


def top_tuple(text):
    """the parts of a parenthesised tuple, or None"""
    t = text.strip()
    if not t.startswith("("):
        return None
    depth, parts, start = 0, [], 1
    for i, ch in enumerate(t):
        if ch in "([{":
            depth += 1
        elif ch in ")]}":
            depth -= 1
            if depth == 0:
                if i != len(t) - 1:
                    return None
                last = t[start:i].strip()
                if last:
                    parts.append(last)
        elif ch == "," and depth == 1:
            parts.append(t[start:i].strip())
            start = i + 1
    return parts


def split_lets(text):
    """leading lets, and the rest"""
    head = ""
    while True:
        m = re.match(r"\s*let ", text)
        if not m:
            return head, text
        depth, i = 0, 0
        level = 0
        words = re.finditer(r"(?<![\w.-])(let|in)(?![\w-])|[()\[\]{}]", text)
        at = None
        for w in words:
            g = w[0]
            if g in "([{":
                depth += 1
            elif g in ")]}":
                depth -= 1
            elif depth == 0 and g == "let":
                level += 1
            elif depth == 0 and g == "in":
                level -= 1
                if level == 0:
                    at = w.end()
                    break
        if at is None:
            return head, text
        head += text[:at]
        text = text[at:]


def as_record(text, clauses, said, who):
    lets, rest = split_lets(text)
    parts, left = [], rest
    for k in range(len(clauses) - 1):
        two = top_tuple(left)
        if not two:
            parts = None
            break
        parts.append(two[0])
        if len(two) == 2:
            left = two[1]
        else:
            left = "(" + ", ".join(two[1:]) + ")"
    if parts is not None:
        parts.append(left)
        return lets + " record {\n      " + "\n      ".join(f"{c} = {p.strip()};" for c, p in zip(clauses, parts)) + "\n    }"
    if rest.strip().startswith(("search", "omega", "grind", "?")):
        return lets + " record { " + "; ".join(f"{c} = {rest.strip()}" for c in clauses) + " }"
    said.append(f"{who}: not a tuple of {clauses}")
    p = [f"{c} = ({rest.strip()}){'.1' * i}{'.0' if i < len(clauses) - 1 else ''}" for i, c in enumerate(clauses)]
    return lets + " record {\n      " + ";\n      ".join(p) + ";\n    }"


def turn(top, crate, names, only):
    all_contracts = contracts(top)
    proofs = top / "crates" / crate / "proofs"
    for path in sorted(proofs.glob("**/Proof.antt")):
        fn = ".".join(path.parent.relative_to(proofs).parts)
        if only and fn not in only:
            continue
        key = f"Rattle-{crate}-proofs.{fn}.Lts"
        if key not in names:
            print(f"left: {fn}: no names ({key})")
            continue
        n, said = names[key], []
        text = re.sub(r"«(\w+)»", r"Qq\1qQ", path.read_text(encoding="utf-8"))
        t = Turn(crate, fn, n, all_contracts, said)
        at_of = {}
        t.nots = False
        base = lambda x: re.sub(r"-?\d+$", "", norm(x))
        old_steps = {norm(p[2][0]) for p in n["places"] if p[2][0]}
        bases = {base(x) for x in old_steps}
        seen = {norm(m) for m in re.findall(r"\.(%s)\.(?:ensures|true|false|given|new|result|auto)" % W, text)}
        t.skewed = {base(x) for x in seen if base(x) in bases and x not in old_steps}
        if t.skewed:
            said.append(f"{fn}: skewed {t.skewed}")
        text = re.sub(r"«(\w+)»", r"Qq\1qQ", path.read_text(encoding="utf-8"))
        uses, decls = chunks(text)
        t.imported = {w.strip().split(" as ")[-1] for u in uses for m in re.findall(r"\{([^}]*)\}", u) for w in m.split(",")}
        uses = [u for u in uses if not re.search(r"\.Statement\.\{|\.Tie as ", u)]
        needs = {}
        for (old, new), at in zip(n["needs"], n["asked_at"]):
            needs.setdefault(strip(old), new)
            at_of.setdefault(new, at[0])
        invariants, answers, own = [], [], []
        for d in decls:
            sig = "\n".join(d["sig"])
            m = re.search(r" : tie\.(\S+)", sig)
            body = ["\n".join(b) for b in d["body"]]
            if not m:
                if re.search(r"-spec$|_spec$", d["name"]) and "statement" in sig:
                    continue
                own.append(d)
                continue
            what = m[1]
            if re.match(r"(invariant|decreases)-", what):
                kind, loop = what.split("-", 1)
                hits = [l for l in n["loops"] if norm(l[0][0]) == norm(loop)]
                eq = re.match(r"(?s)%s((?: %s)*?) =(.*)" % (re.escape(d["name"]), W), body[-1])
                if not hits or not eq:
                    said.append(f"{fn}: {what} by hand")
                    invariants.append("\n".join([*d["comment"], sig, *body]))
                    continue
                (old, new), live = hits[0]
                live = [f"«{v}»" if v in ("data", "record", "open", "ruleset") else v for v in live]
                changed = n["changed"][n["loops"].index(hits[0])]
                params = eq[1].split()
                arg = "l"
                if re.search(r"(?<![^\s(\[{,;])l(?![^\s)\]},;.])", eq[2]):
                    arg = "v"
                moved = [v for v, ch in zip(live, changed) if ch]
                to = {}
                if len(params) != len(live) + len(moved):
                    said.append(f"{fn}: {what}: {len(params)} parameters for {live} {moved}: {params}")
                    by = {norm(v.strip("«»")): v for v in live}
                    for p in params:
                        v = by.get(norm(p.rstrip("₀")))
                        if v:
                            to[p] = f"{arg}.initial.{v}" if p.endswith("₀") else f"{arg}.{v}"
                else:
                    for p, v, ch in zip(params, live, changed):
                        to[p] = f"{arg}.initial.{v}" if ch else f"{arg}.{v}"
                    for p, v in zip(params[len(live):], moved):
                        to[p] = f"{arg}.{v}"
                inner = re.sub(r"--[^\n]*|(?<![^\s(\[{,;])(%s)(?![^\s)\]},;.])" % W, lambda m: m[0] if m[0].startswith("--") else to.get(m[0], m[0]), eq[2])
                for q in to:
                    if re.search(r"λ (?:[^.()]* )?%s(?: [^.()]*)?\. |[({]%s(?: [^:()]*)? : |[({][^:()]* %s(?: [^:()]*)? : " % ((re.escape(q),) * 3), eq[2]):
                        said.append(f"{fn}: {what} binds {q} again")
                extra = body[:-1]
                invariants.append("\n".join([*d["comment"], f"abbrev pub {kind}-{new} : goal.{kind}-{new}", *extra, f"{kind}-{new} {arg} ={inner}"]))
                continue
            goal = re.sub(r"^Need-", "", what.split()[0])
            new = needs.get(strip(goal))
            eq = re.match(r"(?s)%s((?: %s)*?) =(.*)" % (re.escape(d["name"]), W), body[-1]) if body else None
            if new is None or not eq:
                if eq and re.fullmatch(r"\s*search rules\s*", eq[2]):
                    continue
                said.append(f"{fn}: goal {goal} is not asked: {(eq[2] if eq else ''.join(body)).strip()[:150]}")
                continue
            if re.fullmatch(r"\s*(search rules|omega arith)\s*", eq[2]) and len(body) == 1:
                continue
            params = [p for p in eq[1].split() if p not in ("κs", "ks")]
            arg = params[-1]
            t.at = at_of[new]
            inner = t.body(eq[2], arg)
            if arg != "c":
                params[-1] = "c"
            # clauses
            cl = []
            if re.match(r"returns", new):
                cl = t.clauses(f"{crate}::{fn.split('.')[-1].lstrip('+')}", "ensures")
            elif "-requires" in new:
                old = next(o for o, w in n["needs"] if w == new)
                base = re.sub(r"-requires(-\d+)?$", "", norm(old))
                hits = {p[3] for p in n["places"] if p[3] and re.sub(r"\d+$", "", norm(p[2][0])) == base}
                hits = hits or {f"{c}" for c in all_contracts if norm(c.split("::")[1]) == base}
                if len(hits) == 1:
                    cl = t.clauses(hits.pop(), "requires")
                elif len(hits) > 1:
                    said.append(f"{fn}: {new}: which of {hits}")
            if len(cl) > 1:
                inner = " " + as_record(inner, cl, said, f"{fn}.{new}").strip()
                if "\n" in inner:
                    inner = "\n    " + inner.strip()
            answers.append("\n".join([*d["comment"], f"pub {new} : goal.{new}", *body[:-1], f"{new} {' '.join(params)} ={inner}"]))
        # own declarations: those that the invariants name go there
        inv_text = "\n".join(invariants)
        shown = []
        pending = True
        while pending:
            pending = False
            for d in own:
                if d in shown:
                    continue
                everything = inv_text + "\n".join("\n".join(e["sig"] + sum(e["body"], [])) for e in shown)
                if invariants and re.search(r"(?<![^\s(\[{,;])%s(?![^\s)\]},;.])" % re.escape(d["name"]), everything):
                    shown.append(d)
                    pending = True
        plain = lambda d, pub: "\n".join([*d["comment"], ("pub " if pub and "pub" not in d["marks"] and not d["marks"] else "") + "\n".join(d["sig"]).replace("abbrev ", "abbrev pub ", 1 if pub and d["marks"].strip() == "abbrev" else 0), *["\n".join(b) for b in d["body"]]])
        head = re.match(r"((?:--[^\n]*\n)*)", text)[1]
        module = f"Rattle.{crate}.proofs.{fn}"
        if invariants:
            it = head + "\n".join(uses) + ("\n" if uses else "") + f"use {module}.Given as goal\n\n" + "\n\n".join([plain(d, True) for d in own if d in shown] + invariants) + "\n"
            (path.parent / "Invariants.antt").write_text(it, encoding="utf-8")
        rest = [d for d in own if d not in shown]
        if answers:
            more = f"use {module}.Invariants.{{{', '.join(d['name'] for d in own if d in shown)}}}\n" if shown else ""
            if t.nots:
                for home, word in (("mathlib.Core.Path", "ap"), ("mathlib.Core.Bool", "not")):
                    if not any(re.search(r"[{ ,]%s[,}]" % word, u) for u in uses):
                        uses.append(f"use {home}.{{{word}}}")
            it = ("" if invariants else head) + "\n".join(uses) + ("\n" if uses else "") + more + f"use {module}.Goals as goal\n\n" + "\n\n".join([plain(d, False) for d in rest] + answers) + "\n"
            (path.parent / "Answers.antt").write_text(it, encoding="utf-8")
        elif rest:
            said.append(f"{fn}: own lemmas dropped: {[d['name'] for d in rest]}")
        for f in ("Invariants.antt", "Answers.antt"):
            if (path.parent / f).exists():
                (path.parent / f).write_text(re.sub(r"Qq(\w+?)qQ", r"«\1»", (path.parent / f).read_text(encoding="utf-8")), encoding="utf-8")
        path.rename(path.parent / "Proof.antt.old")
        for s in said:
            print("left:", s)


if __name__ == "__main__":
    top, crate, names, *only = sys.argv[1:]
    turn(pathlib.Path(top), crate, json.load(open(names)), only)
