#!/usr/bin/env python3
"""Tests of tools/run and ./list: python3 test_run.py"""

import os
import struct
import subprocess
import tempfile
import time
import unittest
from pathlib import Path

import network
from scratch import ROOT, SYSTEM, Scratch
from test_network import PAPER


class WithScratch(unittest.TestCase):
    def setUp(self):
        self.scratch = Scratch()
        self.addCleanup(self.scratch.close)
        self.run_it = lambda **more: self.scratch.run("tools/run", "skewlist", **more)
        self.list_it = lambda *words, **more: self.scratch.run("list", *words, **more)

    def touch(self, name):
        # Longer than the clock that the system takes file times from needs for a step.
        time.sleep(0.02)
        (self.scratch.root / name).touch()


class Proving(WithScratch):
    def test_two_runs_at_once_prove_once(self):
        self.scratch.write("while-proving", "sleep 0.4\n")
        both = [self.scratch.start("tools/run", "skewlist") for _ in range(2)]
        told = [process.communicate(timeout=60) for process in both]
        self.assertEqual([out for out, _ in told], 2 * ["period 9\n"])
        self.assertEqual(self.scratch.checks(), 1)
        self.assertEqual(sum("another run is proving" in err for _, err in told), 1)

    def test_only_what_the_program_is_made_of_counts(self):
        status, out, err = self.run_it()
        self.assertEqual((status, out, self.scratch.checks()), (0, "period 9\n", 1))
        self.assertIn("3 to 4 minutes", err)
        self.assertIn("target/prove-skewlist.log", err)
        self.assertEqual((self.scratch.root / "target/prove-skewlist.log").read_text(), "rt: ok\n")
        self.scratch.write("crates/base/out/rlib/stamp", "")
        beside = ["must-fail/a.edit", "must-fail/b.edit", "twins/a.twin", "twins/b.twin", "stdin", "stdout", "out/skewlist", "out/more"]
        for name in [*(f"skewlist/{name}" for name in beside), "base/out/rlib/stamp", "base/out/rlib", "other/src/lib.rt"]:
            self.touch(f"crates/{name}")
            self.assertEqual(self.run_it(), (0, "period 9\n", ""), name)
        self.assertEqual(self.scratch.checks(), 1)

    def test_each_change_is_proved_once(self):
        self.run_it()
        names = ["skewlist/src/main.rt", "listing/specs/Lib.antt", "listing/proofs/f/Proof.antt", "base/src/lib.rt", "base/src/new.rt"]
        for count, name in enumerate([f"crates/{name}" for name in names] + ["crates.txt"], start=2):
            self.touch(name)
            self.run_it()
            self.assertEqual(self.run_it()[2], "", name)
            self.assertEqual(self.scratch.checks(), count, name)
        (self.scratch.root / "crates/base/src/new.rt").unlink()
        self.run_it()
        self.assertEqual(self.scratch.checks(), len(names) + 3)

    def test_a_change_while_proving_counts(self):
        self.scratch.write("while-proving", "sleep 0.02; touch crates/base/src/lib.rt; rm while-proving\n")
        self.run_it()
        self.run_it()
        self.assertEqual(self.scratch.checks(), 2)

    def test_a_copy_that_keeps_its_old_time_counts(self):
        self.run_it()
        time.sleep(0.02)
        os.utime(self.scratch.root / "crates/base/src/lib.rt", (0, 0))
        self.run_it()
        self.assertEqual(self.scratch.checks(), 2)

    def test_what_cannot_be_proved_is_told(self):
        self.scratch.write("while-proving", "echo 'rt: FAILED: base'; exit 1\n")
        status, out, err = self.run_it()
        self.assertEqual((status, out), (6, ""))
        self.assertIn("rt: FAILED: base", err)

    def test_a_crate_that_is_no_program_is_told(self):
        for name in ("base", "no-crate"):
            self.assertEqual(self.scratch.run("tools/run", name), (6, "", f"tools/run: {name} is no program\n"))
        self.assertEqual(self.scratch.checks(), 0)

    @unittest.skipIf(any((Path(folder) / "rt").exists() for folder in SYSTEM.split(":")), "rt is among the system's commands")
    def test_a_missing_kit_is_told(self):
        (self.scratch.root / "bin/rt").unlink()
        status, out, err = self.list_it(str(ROOT / "examples/a.net"))
        self.assertEqual((status, out), (6, ""))
        self.assertIn("rt is missing", err)


class Listing(WithScratch):
    def setUp(self):
        super().setUp()
        self.run_it()

    def test_the_status_tells_the_answer_and_every_byte_is_handed_on(self):
        dues = {"period 9\nlatency 0 0\n": 0, "refused 1 0\n": 1, "refused 7 0\n": 1, "refused 8 0\nloop 1\n": 3, "refused 9 0\n": 4, "": 5}
        for text, due in dues.items():
            self.scratch.write("answer", text)
            self.assertEqual(self.list_it("/dev/null"), (due, text, ""))

    def test_what_cannot_be_read_or_written(self):
        self.assertEqual(self.list_it("no such file"), (5, "", "list: no such file cannot be opened\n"))
        with open("/dev/full", "w") as full:
            status, _, err = self.list_it("/dev/null", out=full)
        self.assertEqual((status, err), (5, "list: standard output cannot be written\n"))

    def test_what_stood_in_the_output_stays(self):
        with tempfile.TemporaryFile("w+") as file:
            file.write("before\n")
            file.flush()
            self.assertEqual(self.list_it("/dev/null", out=file)[0], 0)
            file.seek(0)
            self.assertEqual(file.read(), "before\nperiod 9\n")

    def test_help_wrong_words_and_a_link(self):
        status, out, err = self.list_it("--help")
        self.assertEqual((status, out[:18], err), (0, "usage: ./list FILE", ""))
        for words in ([], ["a", "b"]):
            status, out, err = self.list_it(*words)
            self.assertEqual((status, out, err[:18]), (2, "", "usage: ./list FILE"))
        (self.scratch.root / "elsewhere").mkdir()
        (self.scratch.root / "elsewhere/linked").symlink_to(self.scratch.root / "list")
        self.assertEqual(self.scratch.run("elsewhere/linked", "/dev/null"), (0, "period 9\n", ""))


class Proved(unittest.TestCase):
    """The proved programs themselves, built where they are missing."""

    A = network.make(PAPER["A"][0])

    @classmethod
    def setUpClass(cls):
        for name in ("skewlist", "exam"):
            subprocess.run([ROOT / "tools/run", name], input=b"", capture_output=True, check=True)

    def run_it(self, name, **streams):
        """What the program wrote to standard output, where that was not given, and to standard error."""
        ended = subprocess.run([ROOT / "tools/run", name], stderr=subprocess.PIPE, check=True, **streams)
        return ended.stdout, ended.stderr.decode()

    def test_the_status_of_a_listing(self):
        dues = {"A": (0, "period 9\n"), "A7": (3, "refused 8 0\n"), "A4": (4, "refused 9 0\n")}
        files = {name: (network.make(PAPER[name][0]), *due) for name, due in dues.items()}
        files["cut short"] = (self.A[:-1], 1, "refused 3 0\n")
        for name, (data, status, first) in files.items():
            with self.subTest(name), tempfile.NamedTemporaryFile() as file:
                file.write(data)
                file.flush()
                listed = subprocess.run([ROOT / "list", file.name], capture_output=True, text=True, check=False)
                self.assertEqual((listed.returncode, listed.stdout[: len(first)], listed.stderr), (status, first, ""))

    def test_an_output_that_cannot_be_written_is_told(self):
        request = b"S" + struct.pack("<2i", 62, len(self.A)) + self.A
        for name, data in (("skewlist", self.A), ("exam", request)):
            with open("/dev/full", "wb") as full:
                _, err = self.run_it(name, input=data, stdout=full)
            self.assertEqual(err, f"{name}: standard output cannot be written\n")

    def test_an_input_that_cannot_be_waited_for_is_told(self):
        for name in ("skewlist", "exam"):
            end, begin = os.pipe()
            os.set_blocking(end, False)
            with open(end, "rb") as late, open(begin, "wb"):
                told = self.run_it(name, stdin=late, stdout=subprocess.PIPE)
            self.assertEqual(told, (b"", f"{name}: standard input cannot be read; a non-blocking one cannot be waited for\n"))

    def test_requests_that_end_early_are_told(self):
        within = "exam: standard input ends or fails within a request\n"
        faults = {b"S12": within, b"Q" + bytes(23): within, b"S" + bytes(4) + b"\1\0\0\0": within}
        faults |= {b"X": "exam: a request begins with neither S nor Q\n", b"": ""}
        for data, due in faults.items():
            self.assertEqual(self.run_it("exam", input=data, stdout=subprocess.PIPE), (b"", due))


if __name__ == "__main__":
    unittest.main()
