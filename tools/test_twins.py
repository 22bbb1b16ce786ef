#!/usr/bin/env python3
"""Tests of tools/twins: python3 test_twins.py"""

import importlib.machinery
import importlib.util
import unittest
from pathlib import Path

from scratch import ROOT, Scratch

# The script has no ending, so it is loaded by its path.
LOADER = importlib.machinery.SourceFileLoader("twins", str(Path(__file__).resolve().parent / "twins"))
twins = importlib.util.module_from_spec(importlib.util.spec_from_loader("twins", LOADER))
LOADER.exec_module(twins)

FILES = {"src/lib.rt": "a\nlet x = 1;\nlet y = 1;\n", "specs/Lib.antt": "f = 0\n"}
# A stand-in for `rt`: it accepts whatever has no 'wrong' in it, and does not come to a proof of what has 'nonsense' in it.
RT = """#!/bin/sh
file=$PWD/src/lib.rt
if grep -q nonsense "$file"; then echo "$file:1:1: error: it is nonsense"; exit 1; fi
if grep -q wrong "$file"; then echo "$file:1:1: error: it is wrong"; echo logic=not-proved; exit 1; fi
"""


class Applying(unittest.TestCase):
    def edited(self, text):
        return twins.edited(FILES.get, text)

    def unfit(self, text, why):
        with self.assertRaisesRegex(twins.Unfit, why):
            self.edited(text)

    def test_a_text_that_is_there_once_is_replaced(self):
        due = {"src/lib.rt": "a\nlet x = 2;\nlet y = 1;\n"}
        self.assertEqual(self.edited("file: src/lib.rt\nold: x = 1\nnew: x = 2\n"), due)
        self.assertEqual(self.edited("file: src/lib.rt\nold: let x = 1;\nnew:\n"), {"src/lib.rt": "a\n\nlet y = 1;\n"})
        self.assertEqual(FILES["src/lib.rt"], "a\nlet x = 1;\nlet y = 1;\n")

    def test_spaces_at_the_start_count(self):
        self.assertEqual(self.edited("file: specs/Lib.antt\nold: f = 0\nnew:   f = 1\n"), {"specs/Lib.antt": "  f = 1\n"})
        self.unfit("file: specs/Lib.antt\nold:   f = 0\nnew: f = 1\n", "nowhere")

    def test_a_text_that_is_missing_or_there_twice_is_told(self):
        self.unfit("file: src/lib.rt\nold: z = 1\nnew: z = 2\n", "in src/lib.rt nowhere: z = 1")
        self.unfit("file: src/lib.rt\nold: = 1;\nnew: = 2;\n", "in src/lib.rt more than once: = 1;")
        self.unfit("file: src/no.rt\nold: a\nnew: b\n", "there is no src/no.rt")

    def test_several_groups_are_applied_one_after_another(self):
        text = "file: src/lib.rt\nold: x = 1\nnew: z = 1\nold: y = 1\nnew: x = 1\nold: z = 1\nnew: y = 1\nfile: specs/Lib.antt\nold: 0\nnew: 1\n"
        self.assertEqual(self.edited(text), {"src/lib.rt": "a\nlet y = 1;\nlet x = 1;\n", "specs/Lib.antt": "f = 1\n"})

    def test_what_is_no_edit_is_told(self):
        self.unfit("", "no 'old:' and 'new:' pair")
        self.unfit("file: src/lib.rt\nnew: b\n", "no 'file:' or no 'old:' line")
        self.unfit("old: a\nnew: b\n", "no 'file:' or no 'old:' line")


class Trying(unittest.TestCase):
    def setUp(self):
        self.scratch = Scratch()
        self.addCleanup(self.scratch.close)
        self.scratch.copy("tools/twins")
        self.scratch.write("bin/rt", RT, runs=True)
        self.scratch.write("crates/base/src/lib.rt", "right\n")
        for name in ("must-fail/a.edit", "twins/a.twin"):
            (self.scratch.root / "crates/skewlist" / name).unlink()

    def edit(self, name, old, new):
        folder = twins.FOLDERS[name[-5:]]
        self.scratch.write(f"crates/base/{folder}/{name}", f"file: src/lib.rt\nold: {old}\nnew: {new}\n")

    def twins(self, *words):
        status, out, err = self.scratch.run("tools/twins", *words)
        return status, [line.partition(" (")[0] for line in out.splitlines()], err

    def test_what_is_accepted_and_what_has_no_twin(self):
        self.edit("a.edit", "right", "wrong")
        self.edit("a.twin", "right", "right as well")
        self.edit("b.edit", "right", "wrong")
        self.assertEqual(self.twins(), (0, ["base/a: accepted", "base/b: no twin", "tools/twins: 1 accepted, 1 no twin"], ""))
        self.assertEqual(self.twins("--edits"), (0, ["base/a: refused", "base/b: refused", "tools/twins: 2 refused"], ""))

    def test_what_is_refused_or_cannot_be_applied(self):
        self.edit("a.edit", "right", "left")
        self.edit("a.twin", "right", "wrong")
        self.edit("b.edit", "right", "wrong")
        self.edit("b.twin", "left", "right")
        status, out, _ = self.scratch.run("tools/twins")
        self.assertEqual(status, 1)
        self.assertRegex(out, r"base/a: REFUSED \(\d+ s\): src/lib.rt:1:1: error: it is wrong\nbase/b: CANNOT BE APPLIED: .* nowhere: left\n")
        self.assertEqual(self.twins("--edits", "base/a")[:2], (1, ["base/a: ACCEPTED", "tools/twins: 1 ACCEPTED"]))
        self.edit("a.edit", "right", "nonsense")
        self.assertEqual(self.twins("--edits", "base/a")[:2], (1, ["base/a: DID NOT REACH THE PROVER", "tools/twins: 1 DID NOT REACH THE PROVER"]))
        self.assertEqual((self.scratch.root / "crates/base/src/lib.rt").read_text(), "right\n")

    def test_names_on_the_command_line(self):
        for label in "ab":
            self.edit(f"{label}.edit", "right", "wrong")
            self.edit(f"{label}.twin", "right", "right as well")
        self.assertEqual(self.twins("base/b")[1], ["base/b: accepted", "tools/twins: 1 accepted"])
        self.assertEqual(self.twins("base")[1][:2], ["base/a: accepted", "base/b: accepted"])
        self.assertEqual(self.twins("base/c"), (1, [], "tools/twins: there is no must-fail edit base/c\n"))

    def test_a_crate_that_is_not_proved_is_told(self):
        self.edit("a.edit", "wrong", "wronger")
        self.scratch.write("crates/base/src/lib.rt", "wrong\n")
        status, out, err = self.twins()
        self.assertEqual((status, out), (1, []))
        self.assertIn("base is not proved as it stands", err)


class Kept(unittest.TestCase):
    """The twins of the crates."""

    def test_every_twin_has_its_edit_and_both_can_be_applied(self):
        for path in sorted(ROOT.glob("crates/*/twins/*.twin")):
            with self.subTest(str(path.relative_to(ROOT))):
                edit = path.parent.parent / "must-fail" / f"{path.stem}.edit"
                self.assertTrue(edit.exists())
                changed = [twins.edited(twins.content_in(path.parent.parent), one.read_text()) for one in (edit, path)]
                self.assertNotEqual(*changed)

    def test_every_edit_and_twin_stands_in_its_folder(self):
        # What else stands in must-fail/ `rt ci` counts as a bad edit.
        self.assertEqual([path for path in ROOT.glob("crates/*/must-fail/*") if path.suffix != ".edit"], [])
        self.assertEqual([path for path in ROOT.glob("crates/*/twins/*") if path.suffix != ".twin"], [])
        self.assertGreaterEqual(len([*ROOT.glob("crates/*/twins/*")]), 80)


if __name__ == "__main__":
    unittest.main()
