#!/usr/bin/env python3
"""Tests of the picture that docs/ARCHITECTURE.md opens with: python3 test_picture.py

In the picture a crate is its name in brackets, and lines of |, - and + lead down from the crates that use to those that are used.
"""

import re
import sys
import unittest
from collections import Counter
from pathlib import Path

ROOT = Path(__file__).resolve().parent.parent
BESIDE = {"|": [(-1, 0), (1, 0)], "-": [(0, -1), (0, 1)], "+": [(-1, 0), (1, 0), (0, -1), (0, 1)]}


def crates(text):
    """What each crate of crates.txt depends on, of the crates in it; behind a crate's name may stand its kind."""
    lines = [line.split("#")[0].split(":") for line in text.splitlines()]
    named = {line[0].split()[0]: line[1].split() for line in lines if len(line) == 2}
    return {name: {other for other in others if other in named} for name, others in named.items()}


def opening(text):
    """The lines of the first indented block."""
    lines = text.splitlines()
    first = next(i for i, line in enumerate(lines) if line.startswith("    "))
    last = next((i for i, line in enumerate(lines) if i > first and line and not line.startswith("    ")), len(lines))
    return lines[first:last]


class Picture:
    def __init__(self, lines):
        self.cells = {(row, column): mark for row, line in enumerate(lines) for column, mark in enumerate(line)}
        found = [(match, row) for row, line in enumerate(lines) for match in re.finditer(r"\[(\w+)\]", line)]
        self.boxes = [match[1] for match, _ in found]
        self.row = {match[1]: row for match, row in found}
        self.at = {(row, column): match[1] for match, row in found for column in range(*match.span())}

    def line_from(self, start):
        """The cells of the line that a cell belongs to."""
        seen, todo = {start}, [start]
        while todo:
            row, column = todo.pop()
            for down, right in BESIDE[self.cells[row, column]]:
                cell = (row + down, column + right)
                if cell not in seen and cell not in self.at and self.cells.get(cell) in BESIDE:
                    seen.add(cell)
                    todo.append(cell)
        return seen

    def uses(self):
        """Each pair of a crate and another to which a line leads down from it."""
        pairs = set()
        for (row, column), user in self.at.items():
            if self.cells.get((row + 1, column)) == "|":
                line = self.line_from((row + 1, column))
                ends = {self.at.get((below + 1, beside)) for below, beside in line if self.cells[below, beside] == "|"}
                pairs |= {(user, used) for used in ends if used}
        return pairs


def faults(picture, needs):
    """What the picture says otherwise than crates.txt."""
    counts = Counter(picture.boxes)
    found = [f"{name} stands {counts[name]} times" for name in needs if counts[name] != 1]
    found += [f"{name} is no crate" for name in counts if name not in needs]
    for user, used in ((user, used) for user in needs for used in needs[user]):
        if picture.row.get(used, sys.maxsize) <= picture.row.get(user, -1):
            found.append(f"{used} must stand below {user}")
    return found + [f"a line leads from {user} to {used}" for user, used in picture.uses() if used not in needs.get(user, [])]


class Opening(unittest.TestCase):
    @classmethod
    def setUpClass(cls):
        cls.lines = opening((ROOT / "docs" / "ARCHITECTURE.md").read_text())
        cls.needs = crates((ROOT / "crates.txt").read_text())

    def faults_with(self, old, new):
        changed = [line.replace(old, new) for line in self.lines]
        self.assertNotEqual(changed, self.lines)
        return faults(Picture(changed), self.needs)

    def test_the_picture_is_true(self):
        picture = Picture(self.lines)
        self.assertEqual(faults(picture, self.needs), [])
        self.assertGreaterEqual(len(picture.uses()), 15)
        self.assertIn(("skewlist", "skew"), picture.uses())
        self.assertIn(("skewlist", "listing"), picture.uses())

    def test_a_wrong_picture_is_found(self):
        self.assertEqual(self.faults_with("[text]", ""), ["text stands 0 times"])
        self.assertEqual(self.faults_with("[text]", "[text] [text]"), ["text stands 2 times"])
        self.assertEqual(self.faults_with("[text]", "[text] [other]"), ["other is no crate"])
        exchanged = [line.replace("[rounds]", "[swap]").replace("[look]", "[rounds]") for line in self.lines]
        exchanged = [line.replace("[swap]", "[look]") for line in exchanged]
        self.assertIn("rounds must stand below look", faults(Picture(exchanged), self.needs))
        beside = [line.replace("[network]", "[network] [records]") for line in self.lines if "     [records]" not in line]
        self.assertIn("records must stand below network", faults(Picture(beside), self.needs))
        self.assertEqual(self.faults_with("[guess]     [answer]", "[answer]     [guess]"), ["a line leads from answer to needs"])


if __name__ == "__main__":
    unittest.main()
