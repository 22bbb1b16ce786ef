#!/usr/bin/env python3
"""Tests of tools/release: python3 test_release.py

A scratch repository with this tree's files and the programs that were built here is released, and unpacked where there is no prover."""

import os
import re
import shutil
import subprocess
import tarfile
import tempfile
import unittest
from pathlib import Path

from scratch import ROOT, SYSTEM

BUILT = ("target/bin/exam", "target/bin/skewlist", "target/staticlib/libskew_c.a")
LAST = "7 passed, 0 failed"
ENV = {**os.environ, "PATH": SYSTEM, "GIT_CONFIG_GLOBAL": os.devnull, "GIT_CONFIG_NOSYSTEM": "1"}


def run(folder, *words):
    return subprocess.run(words, cwd=folder, env=ENV, capture_output=True, text=True, check=False)


@unittest.skipUnless(shutil.which("git", path=SYSTEM), "git is missing")
@unittest.skipUnless(all((ROOT / name).exists() for name in BUILT), "the programs and the library are not built")
@unittest.skipIf(shutil.which("rt", path=SYSTEM), "rt is among the system's commands")
class Release(unittest.TestCase):
    @classmethod
    def setUpClass(cls):
        holder = tempfile.TemporaryDirectory()
        cls.addClassCleanup(holder.cleanup)
        cls.root, cls.away = Path(holder.name) / "repository", Path(holder.name) / "away"
        files = subprocess.run(["git", "-C", ROOT, "ls-files", "-co", "--exclude-standard", "-z"], capture_output=True, check=False)
        if files.returncode:
            raise unittest.SkipTest("this is no clone that git will read")
        for name in [name for name in os.fsdecode(files.stdout).split("\0") if name and (ROOT / name).exists()] + list(BUILT):
            (cls.root / name).parent.mkdir(parents=True, exist_ok=True)
            shutil.copy(ROOT / name, cls.root / name)
        who = ["-c", "user.name=test", "-c", "user.email=test@example.invalid", "-c", "commit.gpgsign=false"]
        for words in (["init", "-q"], ["add", "-A"], [*who, "commit", "-qm", "all"]):
            subprocess.run(["git", *words], cwd=cls.root, env=ENV, check=True, capture_output=True)

    def setUp(self):
        self.recorded(LAST)

    def recorded(self, line):
        self.assertEqual(run(self.root, "tools/release", "record", line).returncode, 0)

    def released(self):
        made = run(self.root, "tools/release")
        self.assertEqual((made.returncode, made.stderr), (0, ""))
        digest, name = made.stdout.split()
        return digest, self.root / name

    def refused(self, why):
        made = run(self.root, "tools/release")
        self.assertEqual((made.returncode, made.stdout), (1, ""))
        self.assertIn(why, made.stderr)

    def test_unpacked_elsewhere_it_works_without_the_prover(self):
        _, path = self.released()
        with tarfile.open(path) as tar:
            tar.extractall(self.away)
        (folder,) = self.away.iterdir()
        self.assertIn(folder.name, path.name)
        own = run(folder, "./mileparcel", "schedule", "examples/own.csv")
        self.assertEqual((own.returncode, own.stderr), (0, ""))
        self.assertTrue(own.stdout.startswith("period         9 ps\n"), own.stdout)
        self.assertEqual(run(folder, "./list", "examples/d.net").stdout.splitlines()[0], "period 8")
        told = run(folder, "./mileparcel", "--version").stdout
        self.assertEqual(told, (folder / "RELEASE").read_text())
        kit = (ROOT / ".ci" / "kit").read_text().strip()
        self.assertIn(f"kit {kit}\ngate {LAST}\n", told)
        self.assertEqual(run(folder, "sha256sum", "--check", "--strict", "--quiet", "SHA256SUMS").returncode, 0)
        summed = {line.split("  ")[1] for line in (folder / "SHA256SUMS").read_text().splitlines()}
        there = {str(path.relative_to(folder)) for path in folder.rglob("*") if path.is_file()}
        self.assertEqual(summed, there - {"SHA256SUMS"})

    def test_the_same_commit_gives_the_same_bytes(self):
        self.assertEqual(self.released()[0], self.released()[0])

    def test_what_the_gate_did_not_pass_is_not_released(self):
        self.recorded("6 passed, 1 failed")
        self.refused("the gate's last line was '6 passed, 1 failed'")
        self.recorded(LAST)
        program = self.root / "target/bin/exam"
        kept = program.read_bytes()
        program.write_bytes(kept + b"\n")
        self.refused("not those that the gate built")
        program.write_bytes(kept)
        page = self.root / "README.md"
        kept = page.read_bytes()
        page.write_bytes(kept + b"\n")
        self.refused("changes that are in no commit")
        self.recorded(LAST)
        page.write_bytes(kept)
        self.refused("the gate ran on something else")
        (self.root / "target/gate").unlink()
        self.refused("the gate has noted nothing")

    def test_one_version_stands_everywhere(self):
        told = re.search(r'SKEW_VERSION "(.+)"', (ROOT / "include/skew.h").read_text())[1]
        module = re.search(r'__version__ = "(.+)"', (ROOT / "bindings/python/mileparcel/__init__.py").read_text())[1]
        package = re.search(r'^version = "(.+)"', (ROOT / "bindings/rust/Cargo.toml").read_text(), re.MULTILINE)[1]
        self.assertEqual((module, package, self.released()[1].name), (told, told, f"mileparcel-{told}.tar.gz"))

    def test_wrong_words_are_told(self):
        self.assertEqual(run(self.root, "tools/release", "all").returncode, 2)


if __name__ == "__main__":
    unittest.main()
