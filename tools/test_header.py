#!/usr/bin/env python3
"""Tests of what include/skew.h has inline, in C and in C++: python3 test_header.py

try_header.c is built by each compiler for each standard with all warnings as errors, and every build must tell the same.
"""

import re
import struct
import subprocess
import tempfile
import unittest
from concurrent.futures import ThreadPoolExecutor
from pathlib import Path

import network
from compilers import ROOT, STANDARDS, build, compilers
from mileparcel import read
from test_quotations import cells, paragraphs

EXAMPLES = ROOT / "examples"
KINDS = ["setup", "hold", "low", "high"]
AROUND = 8 * b"\xa5"
# The ends of RULES 15.6, and what lies around 0 and around half of the 32 bits.
SLACKS = [-3109999, 12100000, -2110000, 3100000, -2000000, 2000000, -2, -1, 0, 1, -65536, 65536, 2**31 - 1, 1 - 2**31]
PLACES = [0, 1, 255, 2047, 2**31 - 1, 2**31, 2**32 - 1]
# Which macro is the greatest value of each number of RULES 5.6.
GREATEST = {
    "n": "REGISTERS", "m": "PATHS", "floor": "PERIOD", "ceiling": "PERIOD", "u": "UNCERTAINTY", "setup": "MARGIN", "hold": "MARGIN",
    "low": "LATENCY", "high": "LATENCY", "dmax": "DELAY",
}


def answered(slack):
    """A question's answer, and what is to be read out of it."""
    return (slack % 2**32) << 32, (0, 0, slack, 0, int(slack >= 0))


def refused(number, place):
    return place << 32 | number, (number, place, -(2**31), 1, 0)


def text_numbers(text):
    """The counts of a network's registers and paths, and all its numbers in the order of its records."""
    made = read(text.encode(), "text").network
    rows = [(made.floor, made.ceiling, made.u), *made.registers, *made.paths]
    return [len(made.registers), len(made.paths)] + [number for row in rows for number in row]


def answer(period, latencies, loop):
    """The bytes of an answer as RULES 7.2 to 7.4 have them."""
    parts = [struct.pack("<2s3i", b"SK", period, len(latencies), len(loop))]
    parts += [struct.pack("<2si", b"LT", latency) for latency in latencies]
    return b"".join(parts + [struct.pack("<2s2i", b"ED", KINDS.index(kind), number) for kind, number in loop])


def decimals(text):
    """The numbers in a text, with a comma between thousands."""
    return [int(number.replace(",", "")) for number in re.findall(r"-?\d[\d,]*", text)]


def can_build(compiler, flags, program):
    words = [compiler, *flags, "-x", "c", "-", "-o", program]
    return subprocess.run(words, input=b"int main(void) { return 0; }", stderr=subprocess.PIPE, check=False).returncode == 0


class Header(unittest.TestCase):
    @classmethod
    def setUpClass(cls):
        cls.rules = paragraphs((ROOT / "docs" / "RULES.md").read_text(encoding="utf-8"))
        holder = tempfile.TemporaryDirectory()
        cls.addClassCleanup(holder.cleanup)
        cls.folder = Path(holder.name)
        wanted = [(name, standard) for standard, language in STANDARDS.items() for name in compilers(language)]
        cls.programs = {pair: cls.folder / "-".join(pair) for pair in wanted}
        with ThreadPoolExecutor(2) as pool:
            list(pool.map(lambda pair: build(*pair, ROOT / "tools/try_header.c", cls.programs[pair]), wanted))

    def setUp(self):
        if not self.programs:
            self.skipTest("there is no compiler of C or C++")

    def told(self, *words, data=""):
        """What every build writes alike."""
        results = {}
        for pair, program in self.programs.items():
            results[pair] = subprocess.run([program, *words], input=data.encode(), capture_output=True, check=True).stdout
        first = next(iter(results.values()))
        self.assertEqual(results, dict.fromkeys(results, first))
        return first

    def test_number_place_slack_and_yes(self):
        cases = [answered(slack) for slack in SLACKS]
        cases += [refused(number, place) for number in range(1, 11) for place in PLACES]
        lines = self.told("returned", data="\n".join(f"{integer:x}" for integer, _ in cases)).splitlines()
        self.assertEqual([tuple(int(word) for word in line.split()) for line in lines], [due for _, due in cases])

    def test_files_are_put_byte_by_byte(self):
        for name in ("a", "d", "counter", "pipeline"):
            with self.subTest(name):
                data = " ".join(map(str, text_numbers((EXAMPLES / f"{name}.txt").read_text())))
                self.assertEqual(self.told("put", data=data), AROUND + (EXAMPLES / f"{name}.net").read_bytes() + AROUND)

    def test_numbers_at_the_ends_are_put(self):
        ends = [-(2**31), 2**31 - 1, -1, 0, 255, 256, -256, 65536]
        records = [[1, 1, 2**31 - 1, -(2**31), -1], ends[:4], ends[4:]]
        due = network.HEADER.pack(b"NW", *records[0]) + network.RECORD.pack(b"RG", *records[1]) + network.RECORD.pack(b"PT", *records[2])
        self.assertEqual(self.told("put", data=" ".join(str(number) for row in records for number in row)), AROUND + due + AROUND)

    def lines_of(self, period, latencies, loop):
        """What is read of the counter, whose paths lead from 1 to 1, from 1 to 2 and from 2 to 2, and of this answer."""
        path = self.folder / "answer"
        path.write_bytes(answer(period, latencies, loop))
        return self.told("get", str(EXAMPLES / "counter.net"), str(path)).decode().splitlines()

    def test_answers_are_read(self):
        loop = [("setup", 1), ("hold", 1), ("low", 2), ("high", 1)]
        entries = ["setup 1 1 2", "hold 1 2 1", "low 2 0 2", "high 1 1 0"]
        self.assertEqual(self.lines_of(15, [0, -9, -1000000], loop), ["3 3 15", "0", "-9", "-1000000", *entries])
        self.assertEqual(self.lines_of(10000000, [0, 1, 2], []), ["3 3 10000000", "0", "1", "2"])
        self.assertEqual(self.lines_of(0, [], loop[1:2]), ["3 3 0", entries[1]])

    def test_every_number_has_a_sentence_of_its_own(self):
        numbers = [*range(11), 11, 12, 2**31, 2**32 - 1]
        sentences = self.told("messages", data=" ".join(map(str, numbers))).decode().splitlines()
        self.assertEqual(sentences[11:], 4 * ["No call returns this number."])
        self.assertEqual(len(set(sentences)), 12)
        # A number in a sentence is one that the rules have there.
        allowed = {number for paragraph in ("5.6", "6.2", "8.3") for number in decimals(self.rules[paragraph])}
        for sentence in sentences:
            self.assertRegex(sentence, r"^[A-Z][^.]+\.$")
            self.assertLessEqual(set(decimals(sentence)), allowed, sentence)

    def test_kinds_have_names(self):
        self.assertEqual(self.told("kinds", data="0 1 2 3 4 -1").decode().split("\n"), [*KINDS, "no kind", "no kind", ""])

    def test_nothing_undefined_is_done(self):
        """The functions once more in programs that stop where something undefined is done."""
        flags = ["-fsanitize=undefined", "-fno-sanitize-recover=all"]
        watched = {(name, "c99"): self.folder / f"watched-{name}" for name in compilers("c") if can_build(name, flags, self.folder / "empty")}
        if not watched:
            self.skipTest("no C compiler can watch for what is undefined")
        for pair, program in watched.items():
            build(*pair, ROOT / "tools/try_header.c", program, *flags)
        self.programs = watched
        self.test_number_place_slack_and_yes()
        self.test_files_are_put_byte_by_byte()
        self.test_numbers_at_the_ends_are_put()
        self.test_answers_are_read()
        self.test_every_number_has_a_sentence_of_its_own()
        self.test_kinds_have_names()

    def limits(self):
        lines = self.told("limits").decode().splitlines()
        return {name: int(number) for name, number in (line.rsplit(" ", 1) for line in lines)}

    def test_limits_are_those_of_the_rules(self):
        table = [cells(line) for line in self.rules["5.6"].splitlines() if line.startswith("|")]
        ranges = {row[2]: row[4] for row in table[2:]}
        self.assertEqual(len(ranges), 13)
        limits = self.limits()
        for number, name in GREATEST.items():
            greatest = limits[f"SKEW_MAX_{name}"]
            least = {"n": [1], "floor": [1], "m": [0], "u": [0]}.get(number, [])
            least = [-greatest] if name in ("MARGIN", "LATENCY") else least
            with self.subTest(number):
                self.assertEqual(decimals(ranges[number].split(";")[0]), [*least, greatest])
        period, latency = limits["SKEW_MAX_PERIOD"], limits["SKEW_MAX_LATENCY"]
        self.assertEqual(decimals(self.rules["8.3"])[1:5], [1, period, -latency, latency])
        self.assertEqual(decimals(self.rules["5.5"])[-1], limits["SKEW_MAX_FILE"])

    def test_sizes_follow_from_the_counts(self):
        limits = self.limits()
        self.assertEqual(limits["SKEW_MAX_FILE"], limits["skew_file_size(SKEW_MAX_REGISTERS, SKEW_MAX_PATHS)"])
        self.assertEqual(limits["SKEW_MAX_ROOM"], limits["skew_room(SKEW_MAX_REGISTERS)"])

    def test_the_version_is_its_numbers(self):
        limits = self.limits()
        parts = [limits[f"SKEW_VERSION_{part}"] for part in ("MAJOR", "MINOR", "PATCH")]
        text = (ROOT / "include" / "skew.h").read_text()
        self.assertEqual(re.findall(r'^#define SKEW_VERSION "(.*)"$', text, re.M), [".".join(map(str, parts))])


if __name__ == "__main__":
    unittest.main()
