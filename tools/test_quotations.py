#!/usr/bin/env python3
"""Tests that what is quoted from docs/RULES.md stands there: python3 test_quotations.py

A comment or a page quotes a paragraph as RULES 3.2: "its words", "and others", where .. stands for words left out, or a row of its table
as RULES 6.2: | its | cells |, with further rows on the lines below. Elsewhere it names a paragraph, or several: RULES 5.6, 8.3.
"""

import re
import unittest
from pathlib import Path

ROOT = Path(__file__).resolve().parent.parent
PLACES = ["README.md", "list", "mileparcel", ".ci", "bench", "bindings", "crates", "docs", "examples", "include", "second", "tools"]
C = r"/\*|\*|//"
SIGNS = {".antt": "--", ".rt": "//", ".rs": "//[/!]?", ".h": C, ".c": C, ".hpp": C, ".cpp": C, ".md": "(?!)", ".py": "#", "": "#"}
NAMED = re.compile(r"RULES (\d+\.\d+(?:(?:,| and|, and| to) \d+\.\d+)*)")
QUOTED = re.compile(r'RULES (\d+\.\d+): ("[^"]*"(?:, "[^"]*")*)')
ROWED = re.compile(r"RULES (\d+\.\d+):\s*(\|.*\|)?$")


def folded(text):
    """The words alone: no marks of Markdown, and one blank for all white space."""
    return " ".join(re.sub(r"[*`]", "", text).split())


def cells(row):
    return [folded(cell) for cell in row.strip().strip("|").split("|")]


def paragraphs(text):
    """Each numbered paragraph, with the tables that follow it."""
    parts = re.split(r"^(?:\*\*(\d+\.\d+)\*\*|#+ .*)", text, flags=re.M)
    return {number: words for number, words in zip(parts[1::2], parts[2::2]) if number}


def stands(quotation, paragraph):
    """Whether the parts of a quotation occur in the paragraph, word for word and in order."""
    parts = [re.escape(folded(part)) for part in quotation.split(" .. ")]
    return bool(re.search(r"(?<!\w)" + r"(?!\w).*(?<!\w)".join(parts) + r"(?!\w)", folded(paragraph)))


def quotations(whole):
    """Each quotation in a text, with its paragraph."""
    return [(number, words) for number, row in QUOTED.findall(whole) for words in re.findall(r'"([^"]*)"', row)]


def bare(text, suffix):
    """The lines without the sign that begins a comment; None for a line that has none."""
    sign = re.compile(rf"\s*(?:{SIGNS[suffix]})(.*)")
    return [match[1].strip() if (match := sign.match(line)) else None for line in text.splitlines()]


def joined(text, suffix):
    """The text with the comments' signs taken off, on one line."""
    lines = zip(bare(text, suffix), text.splitlines())
    return " ".join(line.strip() if comment is None else comment for comment, line in lines)


def rows(text, suffix):
    """Each row of a table in a comment, with the paragraph that it is said to be from, or None."""
    number = None
    for line in bare(text, suffix):
        begins = ROWED.search(line or "")
        number = begins[1] if begins else number if line and line.startswith("|") else None
        row = begins[2] if begins else line
        if row and row.startswith("|"):
            yield number, row


def faults(text, suffix, rules):
    """What a file says of the rules that they do not say."""
    whole = joined(text, suffix)
    named = [number for numbers in NAMED.findall(whole) for number in re.findall(r"\d+\.\d+", numbers)]
    found = [f"there is no {number}" for number in named if number not in rules]
    found += [f"{number} has no words: {words}" for number, words in quotations(whole) if not stands(words, rules.get(number, ""))]
    for number, row in rows(text, suffix):
        table = [cells(line) for line in rules.get(number, "").splitlines() if line.startswith("|")]
        if cells(row) not in table:
            found.append(f"{number} has no row: {row}" if number else f"a row without its paragraph: {row}")
    return found


def strays(text, suffix):
    """The comments, each as one line, that have a quotation without its paragraph."""
    comments = "\n".join("" if line is None else line for line in bare(text, suffix)).split("\n\n")
    return [" ".join(comment.split()) for comment in comments if '"' in QUOTED.sub("", " ".join(comment.split()))]


def files():
    """Every text that may quote the rules, but for this one."""
    for place in PLACES:
        for path in [ROOT / place] if (ROOT / place).is_file() else sorted((ROOT / place).rglob("*")):
            parts = path.relative_to(ROOT).parts
            stored = "target" in parts or (place == "crates" and (not path.suffix or parts[2] == "out"))
            if path.is_file() and path.suffix in SIGNS and not stored and path != Path(__file__).resolve():
                yield path


class Quotations(unittest.TestCase):
    @classmethod
    def setUpClass(cls):
        cls.rules = paragraphs((ROOT / "docs" / "RULES.md").read_text(encoding="utf-8"))
        cls.texts = {path.relative_to(ROOT): (path.read_text(encoding="utf-8"), path.suffix) for path in files()}

    def test_the_rules_are_read(self):
        self.assertGreaterEqual(len(self.rules), 90)
        self.assertEqual(folded(self.rules["1.4"]), "Every time is a whole number of picoseconds.")
        self.assertIn("| high | t <= high_i |", self.rules["8.5"])
        self.assertNotIn("Demand 2", self.rules["10.3"])

    def test_all_that_is_quoted_stands_in_the_rules(self):
        for path, (text, suffix) in self.texts.items():
            with self.subTest(file=str(path)):
                self.assertEqual(faults(text, suffix, self.rules), [])
        quoted = [path for path, (text, suffix) in self.texts.items() for _ in quotations(joined(text, suffix))]
        self.assertGreaterEqual(len(quoted), 80)
        self.assertGreaterEqual(len([path for path in quoted if "specs" in path.parts]), 30)
        self.assertGreaterEqual(sum(number is not None for text in self.texts.values() for number, _ in rows(*text)), 20)

    def test_definitions_and_proofs_quote_nothing_else(self):
        for path, text in self.texts.items():
            if path.suffix == ".antt":
                with self.subTest(file=str(path)):
                    self.assertEqual(strays(*text), [])

    def faults_of(self, *lines):
        return faults("\n".join(lines) + "\n", ".antt", self.rules)

    def test_a_wrong_quotation_is_found(self):
        good = ['  -- RULES 4.2: "A loop contradicts itself at P when its amounts', '  -- at P add up to more than 0. .. no contradiction." So it is.']
        wrong = [("more", "less"), ("4.2", "4.1"), ("4.2", "4.20"), ("contradiction", "contradict"), ("A loop", "A loop.")]
        for old, new in [("", ""), ("A loop", "loop"), ("up to", "up  to"), *wrong]:
            with self.subTest(new=new):
                changed = [line.replace(old, new) for line in good]
                self.assertEqual(bool(self.faults_of(*changed)), (old, new) in wrong)
        self.assertEqual(self.faults_of('-- RULES 2.3: "at least .. Every rule"'), ["2.3 has no words: at least .. Every rule"])
        self.assertEqual(self.faults_of('-- RULES 5.6: "1 to 256", "0 to 2,047"'), ["5.6 has no words: 0 to 2,047"])
        self.assertEqual(self.faults_of("-- as RULES 5.6, 8.3 and 9.9 say"), ["there is no 9.9"])
        self.assertEqual(self.faults_of("-- (RULES 7.2 to 7.4, 6.20)"), ["there is no 6.20"])

    def test_a_wrong_row_is_found(self):
        good = ["-- RULES 6.2:", "-- | 2 | n or m is out of range   | 0 | untouched |"]
        good.append("-- | 3 | the file's length is not 22 + 18(n + m) | 0 | untouched |")
        self.assertEqual(self.faults_of(*good), [])
        self.assertEqual(self.faults_of("-- F: RULES 11.5: | F | n = 1, no paths, floor 1 | answered | 1 | 0 | none |"), [])
        self.assertEqual(self.faults_of(*good[1:2]), ["a row without its paragraph: " + good[1][3:]])
        self.assertEqual(len(self.faults_of(*[line.replace("6.2", "6.3") for line in good])), 2)
        self.assertEqual(len(self.faults_of(*[line.replace("| 0 |", "| 1 |") for line in good])), 2)
        self.assertEqual(len(self.faults_of(*[line.replace(" | untouched", "") for line in good])), 2)

    def test_a_quotation_without_its_paragraph_is_found(self):
        self.assertEqual(strays('-- RULES 2.6: "Equality\n-- meets a rule."\ncode "x"\n', ".antt"), [])
        self.assertEqual(strays('x\n  -- so\n  -- "Equality meets a rule."\nx\n', ".antt"), ['so "Equality meets a rule."'])
        self.assertEqual(len(strays('-- RULES 2.6: "Equality meets a rule." and "no more"\n', ".antt")), 1)


if __name__ == "__main__":
    unittest.main()
