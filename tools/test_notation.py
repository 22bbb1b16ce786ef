#!/usr/bin/env python3
"""Tests of README.md's key to the notation of contracts: its examples stand in the files that it names, and it has every sign that a reader
meets there: python3 test_notation.py"""

import re
import unittest
from pathlib import Path

ROOT = Path(__file__).resolve().parent.parent
# What README.md asks readers to read.
READ = ["paper/specs/*.antt", "whole/specs/*.antt", "loops/specs/Needs.antt", "skew/specs/*.antt", "skew/src/*.rt"]
ROW = re.compile(r"\| .* \| `(.*)` \| `(\S*)` \|")


def key(page):
    """The rows of the table."""
    rows = page.partition("| sign or word |")[2].partition("\n\n")[0].splitlines()[2:]
    if not rows:
        raise ValueError("the page has no key")
    return rows


def missing(row, crates):
    """Whether the example of a row does not stand in its file."""
    example, name = ROW.fullmatch(row).groups()
    return example not in (crates / name).read_text(encoding="utf-8")


def signs(text):
    """The signs that are no ASCII, outside comments."""
    return {sign for line in text.splitlines() for sign in re.split(r"--|//", line)[0] if not sign.isascii()}


class Key(unittest.TestCase):
    @classmethod
    def setUpClass(cls):
        cls.rows = key((ROOT / "README.md").read_text(encoding="utf-8"))

    def test_every_example_stands_in_its_file(self):
        self.assertGreaterEqual(len(self.rows), 20)
        self.assertEqual([row for row in self.rows if missing(row, ROOT / "crates")], [])

    def test_every_sign_is_in_the_key(self):
        met = set()
        for pattern in READ:
            paths = sorted((ROOT / "crates").glob(pattern))
            self.assertTrue(paths, pattern)
            here = set().union(*(signs(path.read_text(encoding="utf-8")) for path in paths))
            self.assertIn("≡", here, pattern)
            met |= here
        self.assertEqual(met - set("".join(self.rows)), set())

    def test_a_wrong_row_is_found(self):
        row = next(row for row in self.rows if "requires" in row)
        self.assertFalse(missing(row, ROOT / "crates"))
        self.assertTrue(missing(row.replace("Accepted", "Excepted"), ROOT / "crates"))
        self.assertTrue(missing(row.replace("question.rt", "schedule.rt"), ROOT / "crates"))
        self.assertEqual(signs("a → b -- ∀\nx ≡ y // Σ\n"), {"→", "≡"})


if __name__ == "__main__":
    unittest.main()
