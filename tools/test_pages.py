#!/usr/bin/env python3
"""Tests that the commands of the pages and of the help do what is shown: python3 test_pages.py

A block that begins with ```console has commands, as `$ command`, each with what it writes to standard output; a line ... stands for any
lines. Where nothing is shown the command must succeed. Where it does not succeed, `$ echo $?` comes next and shows its status. The commands
of a page are run in order, by bash, from a folder of links to what stands in the project, so that what they write stays out of it.

A block that begins with ```sh has commands that are not run. UNRUN has each of them, with the reason, so that none is hidden there.
"""

import os
import re
import shutil
import subprocess
import tempfile
import unittest
from pathlib import Path
from typing import NamedTuple

ROOT = Path(__file__).resolve().parent.parent
STATUS = "echo $?"
STORED = "needs yosys and OpenSTA, and a circuit that is not stored here; what they wrote is stored"
STA = ["yosys -q synth.ys", "sta -no_splash -exit reports.tcl > dds.reports", "sta -no_splash -exit confirm.tcl > dds.confirmed"]
AROUND_STA = [
    "mkdir -p target/opensta",
    "cp examples/opensta/* target/opensta",
    "cd target/opensta",
    r"cp $(dpkg -L python-pyparsing-doc | grep '/dds\.v$') $(dpkg -L qflow-tech-osu018 | grep 'stdcells\.lib$') .",
    "python3 reports_to_csv.py 0.02 0 0.3 < dds.reports > dds.csv",
]
COMPARED = "builds the second program; the gate does the same with more requests"
UNRUN = {
    "README.md": {
        ".ci/run": "is the gate, which runs this test",
        "tools/release": "needs a commit that the gate has passed; test_release.py makes one of a scratch repository",
        "second/compare 1 1000": COMPARED,
        "second/compare files examples/a.net": COMPARED,
        "second/compare worked": COMPARED,
    },
    "examples/real/README.md": {
        'for f in nets/*.net; do ./list "$f" > "examples/real/$(basename "$f" .net).list"; done': "writes the stored listings anew",
    },
    "docs/USING.md": dict.fromkeys(STA, STORED),
    "examples/opensta/README.md": dict.fromkeys([*STA, *AROUND_STA], STORED),
}
# Examples of the help that are there to show a refusal, with the status that they end with.
REFUSED = {"./mileparcel schedule examples/own.csv --period 8": 4}
# What a word of a command needs beside bash and python3.
NEEDS = {word: (word,) for word in ("rt", "cc", "c++", "make", "pkg-config", "git")}
NEEDS.update({"cargo": ("cargo", "cc"), "second/compare": ("cargo", "rt"), "examples/build": ("rt", "cc", "cargo")})
PROVED = ("./mileparcel", "./list", "tools/run", "examples/python/main.py")
LOOKS_RUN = re.compile(r"\$ |\./|\.ci/|(tools|second|bench|examples|bin)/\S+( |$)|(python3|rt|cc|c\+\+|cargo|rustc|make|for|cd|cp|mkdir|yosys|sta) ")


class Step(NamedTuple):
    command: str
    shown: list


class Malformed(Exception):
    """A page that cannot be read as pages are written here."""


def blocks(text):
    """Each fenced block: its language, which may be missing, and its text."""
    return re.findall(r"^```([^\s`]*)\n(.*?)^```$", text, flags=re.M | re.S)


def steps(body):
    """The commands of a console block, with what is shown of each."""
    found = []
    for line in body.splitlines():
        if line.startswith("$ "):
            found.append(Step(line[2:], []))
        elif found:
            found[-1].shown.append(line)
        else:
            raise Malformed(f"a console block begins with a command, and not with '{line}'")
    return found


def unrun(text):
    """The commands of the sh blocks, without comments."""
    lines = [line for language, body in blocks(text) if language == "sh" for line in body.splitlines()]
    return {command for line in lines if (command := re.sub(r"(^|\s+)#.*", "", line))}


def strays(text):
    """Lines that look like commands, in blocks that are neither console nor sh."""
    others = [line for language, body in blocks(text) if language not in ("console", "sh") for line in body.splitlines()]
    outside = re.sub(r"^```.*?^```$", "", text, flags=re.M | re.S)
    indented = [line[4:] for line in outside.splitlines() if line.startswith("    ")]
    return [line for line in others + indented if LOOKS_RUN.match(line)]


def alike(shown, out):
    """Whether an output is what is shown."""
    parts = [r"(?:.*\n)*" if line == "..." else re.escape(line) + r"\n" for line in shown]
    whole = out if out.endswith("\n") or not out else out + "\n"
    return re.fullmatch("".join(parts), whole) is not None


def lacking(command, which=shutil.which, root=ROOT):
    """The tool that a command needs and that is missing; None where none is."""
    words = re.split(r"[\s|;&()<>=\"']+", command)
    needs = [tool for word in words for tool in NEEDS.get(word, ())]
    there = any(all((root / folder / name).exists() for name in ("exam", "skewlist")) for folder in ("bin", "target/bin"))
    if not there and any(word in PROVED for word in words):
        needs.append("rt")
    return next((tool for tool in needs if not which(tool)), None)


class Session:
    """The commands of one page, in one folder. `status` is that of the last one."""

    def __init__(self, folder):
        self.folder, self.status = Path(folder), 0
        for entry in ROOT.iterdir():
            if entry.name != ".git":
                (self.folder / entry.name).symlink_to(entry)
        self.env = {**os.environ, "PYTHONDONTWRITEBYTECODE": "1", "LC_ALL": "C.UTF-8", "COLUMNS": "80"}
        self.env["CARGO_TARGET_DIR"] = str(self.folder / "cargo")

    def run(self, command):
        """What a command wrote, with the status of the one before in $?."""
        ended = subprocess.run(["bash", "-c", f"(exit {self.status})\n{command}"], cwd=self.folder, env=self.env, stdin=subprocess.DEVNULL,
                               capture_output=True, text=True, encoding="utf-8")
        self.status = ended.returncode
        return ended.stdout, ended.stderr

    def fault(self, step, after=None):
        """What a step did that is not shown; None where all is well. `after` is the step that comes next."""
        out, err = self.run(step.command)
        if step.shown and not alike(step.shown, out):
            return f"it is not shown that this is written:\n{out}{err}"
        if self.status and not (after and after.command == STATUS):
            return f"it is not shown, by `$ {STATUS}`, that the status is {self.status}:\n{out}{err}"
        return None


def pages():
    """The pages that have commands for users, by their names."""
    paths = [ROOT / "README.md", ROOT / "docs" / "USING.md", *sorted(ROOT.glob("examples/*/README.md"))]
    return {str(path.relative_to(ROOT)): path.read_text(encoding="utf-8") for path in paths if path.exists()}


def helped(session, *words):
    """A help text, and the examples in it."""
    text, _ = session.run(" ".join(["./mileparcel", *words, "--help"]))
    return text, re.findall(r"^  (\./mileparcel .*)$", text, flags=re.M)


class Shown(unittest.TestCase):
    def session(self):
        holder = tempfile.TemporaryDirectory()
        self.addCleanup(holder.cleanup)
        return Session(holder.name)

    def play(self, session, page, row):
        """Runs the steps of a block. Where a tool is missing the rest of the block is left out, for it may need what was not made."""
        for i, step in enumerate(row):
            missing = lacking(step.command)
            with self.subTest(page=page, command=step.command):
                if missing:
                    self.skipTest(f"{missing} is missing, so this and the rest of its block is left out")
                if fault := session.fault(step, *row[i + 1:i + 2]):
                    self.fail(fault)
            if missing:
                return

    def test_pages(self):
        for page, text in pages().items():
            shown = [body for language, body in blocks(text) if language == "console"]
            with self.subTest(page=page):
                self.assertTrue(shown, "a page without a console block")
            session = self.session()
            for body in shown:
                self.play(session, page, steps(body))

    def test_what_is_not_run_has_its_reason(self):
        for page, text in pages().items():
            with self.subTest(page=page):
                self.assertEqual(unrun(text), set(UNRUN.get(page, {})))
                self.assertEqual(strays(text), [])

    def test_the_examples_of_the_help(self):
        session = self.session()
        top, examples = helped(session)
        commands = re.findall(r"^    ([a-z]+)  ", top, flags=re.M)
        self.assertIn("schedule", commands)
        for command in commands:
            _, more = helped(session, command)
            self.assertTrue(more, f"{command} has no example")
            examples += more
        self.assertLessEqual(set(REFUSED), set(examples))
        for example in examples:
            told = [Step(STATUS, [str(REFUSED[example])])] if example in REFUSED else []
            self.play(session, "the help", [Step(example, []), *told])


class Playing(unittest.TestCase):
    """The tests above, tried on small pages of which it is known what they get wrong."""

    def faults(self, *lines):
        row = steps("\n".join(lines) + "\n")
        with tempfile.TemporaryDirectory() as folder:
            session = Session(folder)
            told = [session.fault(step, *row[i + 1:i + 2]) for i, step in enumerate(row)]
        return [step.command for step, fault in zip(row, told) if fault]

    def test_outputs(self):
        self.assertEqual(self.faults("$ printf '1\\n2\\n3\\n'", "1", "...", "3", "$ echo a; echo b >&2", "a", "$ echo unshown", "$ printf x", "x"), [])
        self.assertEqual(self.faults("$ echo '...'", "...", "$ echo a", "...", "a"), [])
        for shown in (["1"], ["1", "3"], ["..", "3"], ["...", "1"], ["1", "2", "3", "4"], ["1", "...", "2"]):
            with self.subTest(shown=shown):
                self.assertEqual(self.faults("$ seq 3", *shown, "$ true"), ["seq 3"])

    def test_statuses(self):
        self.assertEqual(self.faults("$ (exit 3)", "$ echo $?", "3", "$ true", "$ echo $?", "0"), [])
        self.assertEqual(self.faults("$ (exit 3)", "$ echo $?", "4"), ["echo $?"])
        self.assertEqual(self.faults("$ echo a; exit 3", "a", "$ true"), ["echo a; exit 3"])

    def test_commands_share_a_folder_outside_the_project(self):
        self.assertEqual(self.faults("$ echo a > stray-of-a-page; ls README.md", "README.md", "$ cat stray-of-a-page", "a"), [])
        self.assertFalse((ROOT / "stray-of-a-page").exists())

    def test_what_is_hidden_is_found(self):
        page = "```sh\none  # two\n# three\n```\n\n    ./list x\n    code\n\n```\n$ four\n```\n```console\n$ five\nsix\n```\n"
        self.assertEqual((unrun(page), strays(page)), ({"one"}, ["$ four", "./list x"]))
        self.assertEqual(steps(blocks(page)[2][1]), [Step("five", ["six"])])
        with self.assertRaises(Malformed):
            steps("six\n$ five\n")

    def test_missing_tools(self):
        here = {"python3", "cc"}.intersection
        with tempfile.TemporaryDirectory() as folder:
            cases = {"rt check": "rt", "cc -o x x.c && ./x": None, "cargo run": "cargo", "seq 3|./list - | head": "rt", "echo start": None}
            for command, due in cases.items():
                self.assertEqual(lacking(command, lambda tool: here([tool]), Path(folder)), due, command)
            (Path(folder) / "bin").mkdir()
            for name in ("exam", "skewlist"):
                (Path(folder) / "bin" / name).touch()
            self.assertIsNone(lacking("./list x", lambda tool: here([tool]), Path(folder)))


if __name__ == "__main__":
    unittest.main()
