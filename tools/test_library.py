#!/usr/bin/env python3
"""Tests of the proved library as a C program calls it through include/skew.h: python3 test_library.py

They need target/staticlib/libskew_c.a, which `make` or `examples/build` writes, and are left out where it is not there.
"""

import platform
import random
import re
import subprocess
import tempfile
import unittest
from pathlib import Path

import examples
import network
from compilers import ARCHIVE, ROOT, build, compilers
from test_network import PAPER

HEADER = (ROOT / "include" / "skew.h").read_text()
ROUNDS = 50


def greatest(seed):
    """A network of 256 registers and 2,048 paths between any two, whose hold rules are met at equal latencies."""
    draw = random.Random(seed)
    lines = ["network floor 1 ceiling 10000000 u 7", "register setup 20 hold 10 low 0 high 0"]
    lines += [f"register setup {draw.randint(-5, 60)} hold {draw.randint(-5, 30)} low -300 high 300" for _ in range(255)]
    for _ in range(2048):
        dmin = draw.randint(40, 500)
        lines.append(f"path {draw.randrange(256)} {draw.randrange(256)} {dmin} {dmin + draw.randint(0, 2000)}")
    return network.make("\n".join(lines) + "\n")


def changed(data, at, value):
    return data[:at] + bytes([value]) + data[at + 1 :]


def refused():
    """Files by the number that each is refused with; some are the greatest network with one byte changed."""
    most, small = greatest(1), network.make(PAPER["A"][0])
    files = {1: changed(most, 0, 0), 2: changed(most, 3, 2), 3: most[:-1], 4: changed(most, 21, 255), 5: changed(most, 22, 0)}
    files |= {6: changed(most, len(most) - 1, 255), 8: network.make(PAPER["A7"][0]), 9: network.make(PAPER["A4"][0])}
    files[1.5], files[3.5] = b"", small[:-18]
    return files


@unittest.skipUnless(platform.machine() == "x86_64", "the library is for x86-64")
@unittest.skipUnless(ARCHIVE.exists(), "target/staticlib/libskew_c.a is not there: make writes it")
@unittest.skipUnless(compilers("c"), "there is no C compiler")
class Library(unittest.TestCase):
    @classmethod
    def setUpClass(cls):
        holder = tempfile.TemporaryDirectory()
        cls.addClassCleanup(holder.cleanup)
        cls.folder = Path(holder.name)
        cls.program = cls.folder / "program"
        build(compilers("c")[0], "c99", ROOT / "tools/try_library.c", cls.program, ARCHIVE, "-lpthread")

    def told(self, *words):
        return subprocess.run([self.program, *words], stdout=subprocess.PIPE, text=True, check=True).stdout

    def stored(self, files):
        """The names of files with these contents."""
        paths = [self.folder / f"{count}.net" for count in range(len(files))]
        for path, data in zip(paths, files):
            path.write_bytes(data)
        return paths

    def test_listings_are_the_stored_ones(self):
        texts = examples.real_texts()
        due = [(examples.REAL / f"{name}.list").read_text() for name in texts]
        paths = self.stored([network.make(text) for text in texts.values()])
        self.assertEqual(self.told("list", *paths).split("\n\n"), [text.rstrip("\n") for text in due] + [""])

    def test_refusals_are_listed(self):
        files = refused()
        heads = [listing.split()[:3] for listing in self.told("list", *self.stored(files.values())).split("\n\n")[:-1]]
        places = {6: "2047"}
        self.assertEqual(heads, [["refused", str(int(number)), places.get(number, "0")] for number in files])

    def test_threads_at_once_get_the_same_bytes(self):
        answered = [greatest(seed) for seed in range(8)] + [network.make(text) for text in examples.real_texts().values()]
        files = answered + list(refused().values())
        numbers, last = self.told("threads", str(ROUNDS), *self.stored(files)).splitlines()
        self.assertEqual(last, f"threads {len(files)}, wrong 0")
        self.assertEqual([int(number) for number in numbers.split()], [0] * len(answered) + [int(number) for number in refused()])

    def test_the_stack_is_what_the_header_says(self):
        files = [greatest(1), *refused().values(), network.make(PAPER["F"][0])]
        call, thread, recommended = map(int, self.told("stack", *self.stored(files)).split())
        said = int(re.search(r"`skew_schedule` takes up to ([\d,]+) bytes", HEADER)[1].replace(",", ""))
        self.assertAlmostEqual(call, said, delta=512)
        self.assertLess(thread, 72 * 1024)
        # Room for what a program's own functions and thread-local data take.
        self.assertLess(thread + 32 * 1024, recommended)

    def test_it_needs_two_functions_from_outside(self):
        """A caller without a C library brings these two (docs/DECISIONS.md, Memory)."""
        listed = subprocess.run(["nm", "-u", ARCHIVE], capture_output=True, text=True, check=True).stdout
        self.assertEqual({"memcpy", "memset"}, set(re.findall(r" U (\w+)", listed)))

    def test_no_bytes_may_be_lent(self):
        self.assertEqual(self.told("empty", ROOT / "examples/a.net"), "1 7 1 1 1\n")


if __name__ == "__main__":
    unittest.main()
