#!/usr/bin/env python3
"""Tests of .ci/run and tools/have: python3 test_ci.py"""

import unittest
from pathlib import Path

from scratch import RT, SYSTEM, Scratch

LAST = "1 passed, 0 failed"


class Gate(unittest.TestCase):
    def setUp(self):
        self.scratch = Scratch()
        self.addCleanup(self.scratch.close)
        self.ci(f"echo one; echo {LAST}")
        self.beside("echo beside")

    def ci(self, script):
        self.scratch.write("ci", script + "\n")

    def beside(self, script):
        self.scratch.write(".ci/beside", f"#!/bin/sh\n{script}\n", runs=True)

    def test_the_last_line_is_the_verdicts(self):
        self.assertEqual(self.scratch.run(".ci/run"), (0, f"one\nbeside\n{LAST}\n", ""))

    def test_lines_are_shown_as_they_come(self):
        self.ci(f"echo one; echo two; for i in 1 2 3 4 5 6 7 8 9 0; do [ -f go ] || sleep 0.5; done; ls go; echo {LAST}")
        gate = self.scratch.start(".ci/run")
        self.assertEqual(gate.stdout.readline(), "one\n")
        self.scratch.write("go", "")
        rest, _ = gate.communicate(timeout=60)
        # Had the line been held back, the verdict would have been waited for in vain, and there would be no such file.
        self.assertEqual(rest, f"two\ngo\nbeside\n{LAST}\n")

    def test_what_fails_fails_the_gate(self):
        self.beside("false")
        status, out, _ = self.scratch.run(".ci/run")
        self.assertEqual((status, out.splitlines()[-1]), (1, ".ci/run: the checks beside the proofs failed"))
        self.ci("echo 0 passed, 1 failed; exit 3")
        self.assertEqual(self.scratch.run(".ci/run"), (3, "0 passed, 1 failed\n", ""))

    def test_a_bad_must_fail_edit_fails_the_gate(self):
        told = "rt: ok; handles allowed: none; must-fail edits: 89 refused%s; every proof and must-fail edit was done in this run"
        for words, due in (("", 0), (", 2 of them only by a limit", 0), (", 0 bad", 0), (", 1 bad", 1), (", 2 of them only by a limit, 10 bad", 1)):
            with self.subTest(words):
                self.ci(f"echo '{told % words}'; echo {LAST}")
                status, out, _ = self.scratch.run(".ci/run")
                self.assertEqual((status, "beside" in out, out.endswith(f"{LAST}\n")), (due, not due, not due))
                self.assertEqual("some must-fail edit is bad" in out, bool(due))

    def test_rt_ci_is_called_plainly_with_nothing_before(self):
        self.scratch.write("bin/rt", RT.replace("case", f"echo \"$*\" >>{self.scratch.root}/calls\ncase", 1), runs=True)
        self.assertEqual(self.scratch.run(".ci/run")[0], 0)
        calls = (self.scratch.root / "calls").read_text().splitlines()
        self.assertEqual([call for call in calls if call != "version"], ["ci"])

    def test_what_the_gate_built_is_what_is_run_from_then_on(self):
        built = "cp program crates/skewlist/out/skewlist"
        self.ci(f"mkdir -p crates/skewlist/out; {built}; echo {LAST}")
        self.beside("tools/run skewlist")
        self.assertEqual(self.scratch.run(".ci/run"), (0, f"period 9\n{LAST}\n", ""))
        self.assertEqual(self.scratch.checks(), 0)
        self.ci(f"sleep 0.02; touch crates/base/src/lib.rt; {built}; echo {LAST}")
        self.assertIn("proving and building skewlist first", self.scratch.run(".ci/run")[2])
        self.assertEqual(self.scratch.checks(), 1)

    def test_another_kit_is_said_first_and_last(self):
        self.scratch.write(".ci/kit", "the kit\n")
        status, out, _ = self.scratch.run(".ci/run")
        other = "OTHER KIT: this is 'some kit', and .ci/kit pins 'the kit'"
        self.assertEqual((status, out.splitlines()), (0, [other, "one", "beside", other, LAST]))

    @unittest.skipIf(any((Path(folder) / "rt").exists() for folder in SYSTEM.split(":")), "rt is among the system's commands")
    def test_a_missing_kit_is_told(self):
        (self.scratch.root / "bin/rt").unlink()
        status, out, _ = self.scratch.run(".ci/run")
        self.assertEqual((status, out), (1, ".ci/run: rt is missing: put the Rattle kit on the PATH\n"))


class Having(unittest.TestCase):
    def setUp(self):
        self.scratch = Scratch()
        self.addCleanup(self.scratch.close)
        self.scratch.write("bin/apt-get", f"#!/bin/sh\necho \"$@\" >>{self.scratch.root}/installed\ncp {self.scratch.root}/bin/rt {self.scratch.root}/bin/seldom\n", runs=True)

    def have(self, command, install=None):
        status, _, err = self.scratch.run("tools/have", command, "some-package", MILEPARCEL_INSTALL=install)
        return status, err

    def test_nothing_is_installed_unasked(self):
        self.assertEqual(self.have("sh"), (0, ""))
        for install in (None, "0"):
            status, err = self.have("seldom", install)
            self.assertEqual(status, 1)
            self.assertIn("seldom is missing; MILEPARCEL_INSTALL=1", err)
        self.assertFalse((self.scratch.root / "installed").exists())

    def test_what_was_asked_for_is_installed_and_said(self):
        self.assertEqual(self.have("seldom", "1"), (0, "tools/have: seldom is missing; installing some-package\n"))
        self.assertIn("some-package", (self.scratch.root / "installed").read_text())
        self.assertEqual(self.have("seldom"), (0, ""))

    def test_what_could_not_be_installed_is_missing(self):
        self.assertEqual(self.have("never", "1")[0], 1)


if __name__ == "__main__":
    unittest.main()
