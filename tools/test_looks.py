#!/usr/bin/env python3
"""Tests of edits.py and deps.py, which look at the tree and check nothing, and of what `where` makes of the times of files."""
import sys
import tempfile
import unittest
from importlib.machinery import SourceFileLoader
from importlib.util import module_from_spec, spec_from_loader
from pathlib import Path

sys.dont_write_bytecode = True
import deps
import edits

# a command has no `.py`, so it is not found by its name
where = module_from_spec(spec_from_loader("where", SourceFileLoader("where", str(Path(__file__).with_name("where")))))
where.__loader__.exec_module(where)


class Tree(unittest.TestCase):
    """A repository of two crates, `low` and `high` over it, with one edit."""

    def setUp(self):
        room = tempfile.TemporaryDirectory()
        self.addCleanup(room.cleanup)
        self.top = Path(room.name)
        self.put("crates.txt", "# a comment: low\nlow:\nhigh: low check\n")
        self.put("crates/low/src/lib.rt", "pub fn one() -> u8 {\n    1\n}\n")
        self.put("crates/high/src/main.rt", "// deep::down is only told of\nfn main() {\n    check::expect(low::one() == 1);\n}\n")
        self.put("crates/low/must-fail/two.edit", "It answers two.\nfile: src/lib.rt\nold:     1\nnew:     2\n")
        edits.TOP = deps.TOP = self.top

    def put(self, name, text):
        (self.top / name).parent.mkdir(parents=True, exist_ok=True)
        (self.top / name).write_text(text, encoding="utf-8")

    def faults(self):
        return [fault for edit in self.top.glob("crates/*/must-fail/*.edit") for fault in edits.faults(edit)]


class Edits(Tree):
    def test_an_edit_in_order(self):
        self.assertEqual(self.faults(), [])

    def test_text_that_is_not_there_or_is_twice(self):
        self.put("crates/low/src/lib.rt", "pub fn one() -> u8 {\n    3\n}\n")
        self.assertIn("stands 0 times", self.faults()[0])
        self.put("crates/low/src/lib.rt", "    1\n    1\n")
        self.assertIn("stands 2 times", self.faults()[0])

    def test_replacements_one_after_another(self):
        self.put("crates/low/must-fail/two.edit", "file: src/lib.rt\nold:     1\nnew:     2\nold:     2\nnew:     3\n")
        self.assertEqual(self.faults(), [])

    def test_no_file_and_no_pair(self):
        self.put("crates/low/must-fail/two.edit", "file: src/none.rt\nold: 1\nnew: 2\n")
        self.assertIn("names no file", self.faults()[0])
        self.put("crates/low/must-fail/two.edit", "nothing\n")
        self.assertIn("has no `old:`", self.faults()[0])

    def test_refused_for_its_shape(self):
        said = "rt: must-fail low/two.edit: refused, as it must be"
        shape = said + " (only because a proof file names what the edit took away, so this says little of the contract: ..): x"
        field = said + ": ./proofs/one/Answers.antt:42:214: error: `returns`: record `Rattle.low.proofs.one.Lts.Else`"
        for line in (shape, field):
            self.assertEqual(list(edits.told(line)), [("low/two", "was refused for its shape")])
        self.assertEqual(list(edits.told("rt: must-fail low/two.edit: BAD EDIT: it changes nothing")), [("low/two", "is bad: it changes nothing")])
        self.assertEqual(list(edits.told(said + ": ./proofs/one/Answers.antt:9:1: error: `returns`: 1 is not 2\n")), [])


class Deps(Tree):
    def test_what_a_crate_names(self):
        known = [*deps.listed(), *deps.KIT]
        self.assertEqual(deps.named("high", known), ["low", "check"])
        self.assertEqual(deps.named("low", known), [])

    def test_names_of_proofs(self):
        self.put("crates/low/proofs/Laws.antt", "-- Rattle.high.specs is only told of\nuse Rattle.high.specs.M.{a}\nuse Rattle.low.specs.N.{b}\n")
        self.assertEqual(deps.named("low", [*deps.listed()]), ["high"])


class Where(unittest.TestCase):
    def test_names_of_modules(self):
        self.assertEqual(where.module("Rattle-dem-proofs.check_list.Lts.decls.oantt"), "check_list.Lts")
        self.assertEqual(where.module("Rattle-dem-specs.Model.oantt"), "Model")
        self.assertEqual(where.module("Rattle-dem.oantt"), "the crate's interface")

    def test_a_module_has_the_time_since_the_file_before(self):
        second = 10**9
        stamps = [(7 * second, "Rattle-a-proofs.f.Lts.decls.oantt"), (2 * second, "Rattle-a-specs.M.oantt"), (8 * second, "Rattle-a-proofs.f.Lts.oantt")]
        self.assertEqual(where.spent(stamps), [("f.Lts", 6.0)])


if __name__ == "__main__":
    unittest.main()
