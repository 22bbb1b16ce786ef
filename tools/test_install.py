#!/usr/bin/env python3
"""Tests of the Makefile: python3 test_install.py"""

import os
import platform
import shutil
import subprocess
import tempfile
import time
import unittest
from pathlib import Path

from compilers import ARCHIVE, ROOT, compilers
from scratch import SYSTEM

INSTALLED = ["include/skew.h", "lib/libskew_c.a", "lib/pkgconfig/mileparcel.pc"]
# Each call is noted in the file `calls`; the file `while-proving`, where there is one, is run before the library is there.
RT = """#!/bin/sh
cd ../.. && echo "$*" >>calls
[ ! -f while-proving ] || . ./while-proving
mkdir -p crates/skew_c/out && cp ready crates/skew_c/out/libskew_c.a
"""


def files(folder):
    return sorted(str(path.relative_to(folder)) for path in folder.rglob("*") if path.is_file())


@unittest.skipUnless(shutil.which("make"), "make is missing")
class WithFolder(unittest.TestCase):
    def setUp(self):
        holder = tempfile.TemporaryDirectory()
        self.addCleanup(holder.cleanup)
        self.folder = Path(holder.name).resolve()
        self.project = self.folder / "project"
        self.write("Makefile", (ROOT / "Makefile").read_text())
        self.write("include/skew.h", (ROOT / "include" / "skew.h").read_text())

    def write(self, name, text, mode=0o644):
        path = self.project / name
        path.parent.mkdir(parents=True, exist_ok=True)
        path.write_text(text)
        path.chmod(mode)

    def make(self, *words):
        """The exit status of make, and what it wrote to standard error."""
        env = {name: value for name, value in os.environ.items() if name not in ("PREFIX", "DESTDIR", "MAKEFLAGS", "MAKELEVEL")}
        env["PATH"] = f"{self.project / 'bin'}:{SYSTEM}"
        ended = subprocess.run(["make", *words], cwd=self.project, env=env, capture_output=True, text=True, timeout=60, check=False)
        return ended.returncode, ended.stderr


class Building(WithFolder):
    """With a stand-in for `rt`."""

    def setUp(self):
        super().setUp()
        self.write("crates.txt", "skew_c staticlib:\n")
        for name in ("src/lib.rt", "specs/Lib.antt", "must-fail/a.edit", "twins/a.twin", "stdin", "stdout", "out/rlib/stamp"):
            self.write(f"crates/skew_c/{name}", "")
        self.write("ready", "the library\n")
        self.write("bin/rt", RT, 0o755)

    def calls(self):
        path = self.project / "calls"
        return path.read_text().splitlines() if path.exists() else []

    def touch(self, name):
        # Longer than the clock that the system takes file times from needs for a step.
        time.sleep(0.02)
        (self.project / name).touch()

    def test_the_library_is_built_where_it_is_missing_or_old(self):
        for _ in range(2):
            self.assertEqual(self.make(), (0, ""))
            self.assertEqual(self.calls(), ["lib skew_c"])
        for count, name in enumerate(["crates/skew_c/src/lib.rt", "crates/skew_c/src/new.rt", "crates.txt"], start=2):
            self.touch(name)
            self.make()
            self.make()
            self.assertEqual(len(self.calls()), count, name)
        for name in ("must-fail/a.edit", "must-fail/b.edit", "twins/a.twin", "stdin", "stdout", "out/rlib/stamp", "out/more"):
            self.touch(f"crates/skew_c/{name}")
            self.make()
            self.assertEqual(len(self.calls()), 4, name)

    def test_what_is_taken_away_or_set_back_counts(self):
        self.make()
        time.sleep(0.02)
        os.utime(self.project / "crates/skew_c/src/lib.rt", (0, 0))
        self.make()
        self.assertEqual(len(self.calls()), 2)
        time.sleep(0.02)
        (self.project / "crates/skew_c/specs/Lib.antt").unlink()
        self.make()
        self.assertEqual(len(self.calls()), 3)

    def test_a_change_while_proving_counts(self):
        self.write("while-proving", "sleep 0.02; touch crates/skew_c/src/lib.rt; rm while-proving\n")
        for _ in range(3):
            self.make()
        self.assertEqual(len(self.calls()), 2)

    def test_what_cannot_be_proved_is_not_installed(self):
        self.make()
        self.touch("crates/skew_c/src/lib.rt")
        self.write("while-proving", "exit 1\n")
        for _ in range(2):
            self.assertEqual(self.make("install", f"PREFIX={self.folder / 'prefix'}")[0], 2)
        self.assertFalse((self.folder / "prefix").exists())
        self.assertEqual(len(self.calls()), 3)

    @unittest.skipIf(any((Path(folder) / "rt").exists() for folder in SYSTEM.split(":")), "rt is among the system's commands")
    def test_a_missing_kit_is_told(self):
        (self.project / "bin/rt").unlink()
        status, err = self.make()
        self.assertEqual(status, 2)
        self.assertIn("rt is missing", err)

    def test_a_library_that_stands_ready_is_taken_as_it_is(self):
        self.write("lib/libskew_c.a", "another library\n")
        for _ in range(2):
            self.assertEqual(self.make("all", "install", f"PREFIX={self.folder / 'prefix'}"), (0, ""))
        self.assertEqual((self.folder / "prefix/lib/libskew_c.a").read_text(), "another library\n")
        self.assertEqual(self.calls(), [])


class Installing(WithFolder):
    """As from an unpacked release: a library that stands ready, and no prover."""

    def setUp(self):
        super().setUp()
        (self.project / "lib").mkdir()
        self.prefix = self.folder / "prefix"

    def pkg_config(self, *words):
        if not shutil.which("pkg-config"):
            self.skipTest("pkg-config is missing")
        env = {**os.environ, "PKG_CONFIG_PATH": str(self.prefix / "lib/pkgconfig")}
        return subprocess.run(["pkg-config", *words, "mileparcel"], env=env, stdout=subprocess.PIPE, text=True, check=True).stdout.split()

    def test_uninstalling_takes_away_what_was_installed(self):
        self.write("lib/libskew_c.a", "")
        (self.prefix / "lib").mkdir(parents=True)
        (self.prefix / "lib/other").write_text("")
        self.assertEqual(self.make("install", f"PREFIX={self.prefix}"), (0, ""))
        self.assertEqual(files(self.prefix), sorted([*INSTALLED, "lib/other"]))
        self.assertEqual([(self.prefix / name).stat().st_mode & 0o777 for name in INSTALLED], 3 * [0o644])
        self.assertEqual(self.make("uninstall", f"PREFIX={self.prefix}"), (0, ""))
        self.assertEqual(files(self.prefix), ["lib/other"])

    def test_a_staged_folder_is_not_named_in_what_is_installed(self):
        self.write("lib/libskew_c.a", "")
        stage = self.folder / "a stage"
        staged = Path(f"{stage}{self.prefix}")
        self.assertEqual(self.make("install", f"PREFIX={self.prefix}", f"DESTDIR={stage}"), (0, ""))
        self.assertEqual(files(staged), INSTALLED)
        self.assertEqual((staged / INSTALLED[2]).read_text().splitlines()[0], f"prefix={self.prefix}")
        self.assertFalse(self.prefix.exists())
        self.assertEqual(self.make("uninstall", f"PREFIX={self.prefix}", f"DESTDIR={stage}"), (0, ""))
        self.assertEqual(files(stage), [])

    def test_a_relative_prefix_is_found_from_elsewhere(self):
        self.write("lib/libskew_c.a", "")
        self.assertEqual(self.make("install", "PREFIX=../prefix"), (0, ""))
        self.assertEqual(self.pkg_config("--cflags", "--libs"), [f"-I{self.prefix}/include", f"-L{self.prefix}/lib", "-lskew_c"])
        self.assertEqual(self.make("install", "PREFIX=a b")[0], 2)

    @unittest.skipUnless(platform.machine() == "x86_64", "the library is for x86-64")
    @unittest.skipUnless(ARCHIVE.exists(), "target/staticlib/libskew_c.a is not there: make writes it")
    @unittest.skipUnless(compilers("c") and compilers("c++"), "a compiler of C or C++ is missing")
    def test_examples_are_built_over_what_is_installed(self):
        shutil.copy(ARCHIVE, self.project / "lib/libskew_c.a")
        self.assertEqual(self.make("install", f"PREFIX={self.prefix}"), (0, ""))
        self.assertIn(f'#define SKEW_VERSION "{self.pkg_config("--modversion")[0]}"\n', (self.prefix / "include/skew.h").read_text())
        program = self.folder / "program"
        for source, language, standard, due in (("c/main.c", "c", "c99", "expected"), ("cpp/main.cpp", "c++", "c++17", "cpp/expected")):
            words = [compilers(language)[0], f"-std={standard}", ROOT / "examples" / source, "-o", program]
            subprocess.run([*words, *self.pkg_config("--cflags", "--libs")], check=True)
            printed = subprocess.run([program], stdout=subprocess.PIPE, text=True, check=True).stdout
            self.assertEqual(printed, (ROOT / "examples" / due).read_text())


if __name__ == "__main__":
    unittest.main()
