"""The commands as people call them: exit status, standard input, output and error, files that are written, and names."""

import os
import re
import subprocess
import sys
import textwrap
import unittest
from pathlib import Path

import page
from support import A4, A7, NAMED, ROOT, A, Folder, Proved, network, run

import mileparcel

PACKAGES = ROOT / "bindings" / "python"
FRONT = [sys.executable, str(ROOT / "mileparcel")]


class Statuses(Folder):
    def test_as_help_has_them(self):
        self.assertEqual([line.split()[0] for line in run("--help").err.splitlines() if re.match("  [0-9]  ", line)], list("0123456"))
        for status, words, data in [
            (0, ("schedule",), A.bytes()), (0, ("slack",), A.bytes()), (0, ("check",), A7.bytes()), (0, ("convert", "--to", "csv"), A4.bytes()),
            (0, ("explain", "8"), b""), (0, ("schedule", "--period", "9"), A.bytes()), (0, ("--version",), b""),
            (1, ("schedule",), b""), (1, ("check",), A._replace(u=-1).bytes()), (1, ("slack",), A._replace(floor=0).text()),
            (1, ("convert", "--to", "file"), b"path"),
            (2, (), b""), (2, ("sched",), b""), (2, ("schedule", "--to", "csv"), b""), (2, ("convert",), A.bytes()), (2, ("explain", "11"), b""),
            (2, ("schedule", "--js"), A.bytes()), (2, ("slack", "--no-skew"), A.bytes()),
            (2, ("slack", "--no-skew", "--latencies", "x", "--period", "9"), A.bytes()),
            (2, ("schedule", "--period", "0"), A.bytes()), (2, ("schedule", "--period", "10000001"), A.bytes()),
            (2, ("slack", "--worst", "-1"), A.bytes()), (2, ("slack", "--worst", "9" * 5000), A.bytes()),
            (3, ("schedule",), A7.bytes()), (3, ("slack",), A7.bytes()), (3, ("schedule", "--period", "50"), A7.bytes()),
            (4, ("schedule",), A4.bytes()), (4, ("slack",), A4.bytes()), (4, ("schedule", "--period", "8"), A.bytes()),
            (4, ("slack", "--period", "8"), A.bytes()),
            (5, ("schedule", self.folder / "missing"), b""), (5, ("schedule", self.folder), b""), (5, ("schedule", ""), b""),
            (5, ("check", "--names", self.folder / "missing"), A.text()), (5, ("check", "--names", ""), A.text()),
            (5, ("slack", "--period", "9", "--latencies", ""), A.text()), (5, ("schedule", "--svg", ""), A.text()),
            (5, ("convert", "--to", "csv", "--write-names", ""), A.text()), (5, ("convert", "--to", "csv", "-o", ""), A.text()),
        ]:
            with self.subTest(words=words, status=status):
                ran = run(*words, data=data)
                self.assertEqual(ran.status, status, ran)
                # What is no answer goes to standard error, and nothing else does.
                answer = status in (0, 3, 4) or status == 1 and words[0] != "convert"
                self.assertEqual((bool(ran.out), bool(ran.err)), (answer, not answer))

    def test_a_program_that_stops(self):
        for script in ("exit 0", "exit 1", "head -c 30 >/dev/null; printf 1234", "kill -9 $$"):
            program = self.file("stops", f"#!/bin/sh\n{script}\n")
            program.chmod(0o755)
            for words in (("schedule",), ("slack", "--no-skew", "--period", "9"), ("check",)):
                with Proved([str(program)]) as proved:
                    ran = run(*words, data=A.bytes(), proved=proved)
                self.assertEqual((ran.status, ran.out, "cannot be had, or it stopped" in ran.err), (6, b"", True), (script, words))
        for missing in (self.folder / "none", self.file("not-a-program", "x")):
            with Proved([str(missing)]) as proved:
                self.assertEqual(run("schedule", data=A.bytes(), proved=proved).status, 6)

    def test_a_program_that_tells_something_else(self):
        """A stand-in that refuses what the words accept, and one that accepts what the words refuse: nothing is answered."""
        for number, data in ((5, A.bytes()), (0, A._replace(u=-1).bytes()), (4, A._replace(floor=0, registers=[(1, 1, 1, 0)]).bytes()[:40])):
            script = f"import sys, struct\nsys.stdin.buffer.read(9 + {len(data)})\n" \
                     f"sys.stdout.buffer.write(struct.pack('<2i', {number}, 0) + bytes(4110))\n"
            program = self.file("other.py", script)
            with Proved([sys.executable, str(program)]) as proved:
                ran = run("check", data=data, proved=proved)
            self.assertEqual((ran.status, ran.out, "the module refuses with" in ran.err), (6, b"", True), (number, ran))

    def test_explain(self):
        for number, status in enumerate((0, 1, 1, 1, 1, 1, 1, None, 3, 4, None)):
            told = run("explain", number).text
            self.assertTrue(told.startswith(f"{number}: "), told)
            self.assertEqual(told.splitlines()[3:], [] if status is None else [f"exit status: {status}"])
            self.assertGreater(len(told.splitlines()[2]), 20)

    def test_a_check_does_not_say_that_there_is_a_schedule(self):
        told = run("check", "--json", data=A7.bytes()).json["result"]
        self.assertEqual((told["words"], run("check", data=A7.bytes()).text), ("accepted", "accepted: 3 registers, 3 paths\n"))

    def test_the_modules_own_example(self):
        lines = mileparcel.__doc__[mileparcel.__doc__.index("    import"):mileparcel.__doc__.index("`source.faults`")]
        ran = subprocess.run([sys.executable, "-c", textwrap.dedent(lines)], cwd=ROOT, env={**os.environ, "PYTHONPATH": str(PACKAGES)},
                             capture_output=True, text=True, check=True)
        self.assertEqual(ran.stdout, "0 9 (0, 1, -1)\n")

    def test_version(self):
        told = run("--version").text
        self.assertTrue(told.startswith(f"mileparcel {mileparcel.__version__}\n"), told)
        self.assertRegex(told.splitlines()[1], "^source [0-9A-Za-z][^']*$")
        self.assertEqual(told.splitlines()[2], f"kit {(ROOT / '.ci' / 'kit').read_text().strip()}")


class Explained(unittest.TestCase):
    def test_the_ranges_in_the_words_of_a_number_are_the_pages(self):
        """Every number that stands in them, but for those of the explanation's own: its number and the exit status."""
        records = {2: [("header", "n"), ("header", "m")], 4: [("header", field) for field in ("floor", "ceiling", "u")],
                   5: [key for key in page.RANGES if key[0] == "register"], 6: [("path", "dmin"), ("path", "dmax")]}
        for number, fields in records.items():
            words = run("explain", number).text.split(":", 1)[1].split("exit status")[0]
            told = {int(word) for word in re.findall("-?[0-9]+", words)}
            self.assertEqual(told, {end for key in fields for place in (0, 1) for end in page.RANGES[key].ends({}, place)}, number)


class Called(Folder):
    """The program itself, in a process of its own."""

    def front(self, *words, shell=None, **more):
        more = {"stdin": subprocess.DEVNULL, "capture_output": True, **more}
        words = [*FRONT, *words]
        return subprocess.run(["sh", "-c", f'"$@" {shell}', "sh", *words] if shell else words, timeout=60, check=False, **more)

    def test_standard_input_and_output(self):
        for words in (["schedule"], ["schedule", "-"], ["schedule", self.file("a.net", A.bytes())]):
            ran = self.front(*words, input=A.bytes(), stdin=None)
            self.assertEqual((ran.returncode, ran.stdout, ran.stderr), (0, run("schedule", data=A.bytes()).out, b""))
        ran = self.front("schedule", "nowhere")
        self.assertEqual((ran.returncode, ran.stdout, ran.stderr), (5, b"", b"mileparcel: nowhere cannot be read: No such file or directory\n"))

    def test_a_reader_that_goes_away(self):
        first = self.front("slack", self.file("a.net", A.bytes()), shell="| head -n 1")
        self.assertEqual((first.returncode, first.stdout, first.stderr), (0, b"slacks at 9 ps: 10 rules, all met\n", b""))
        reader, writer = os.pipe()
        os.close(reader)
        gone = self.front("slack", self.folder / "a.net", capture_output=False, stdout=writer, stderr=subprocess.PIPE)
        os.close(writer)
        self.assertEqual((gone.returncode, gone.stderr), (5, b""))

    def test_closed_and_full_ends(self):
        path = self.file("a.net", A.bytes())
        for shell, words, status in ((">/dev/full", ["schedule", path], 5), (">&-", ["schedule", path], 5), ("<&-", ["schedule", path], 0),
                                     ("<&-", ["schedule"], 5), ("2>&-", ["schedule", "nowhere"], 5), ("2>/dev/full", ["schedule", "nowhere"], 5)):
            ran = self.front(*words, shell=shell)
            self.assertEqual((ran.returncode, bool(ran.stdout), b"Traceback" in ran.stderr), (status, status == 0, False), (shell, ran))

    def test_bytes_that_are_no_letters(self):
        name = os.path.join(os.fsencode(self.folder), b"\xff.net")
        Path(os.fsdecode(name)).write_bytes(A.bytes())
        ran = self.front("schedule", name, "--svg", os.path.join(os.fsencode(self.folder), b"\xfe.svg"))
        self.assertEqual((ran.returncode, ran.stderr), (0, b""))
        ran = self.front("check", b"--u=\xff", input=b"from,to,dmin,dmax\n", stdin=None)
        self.assertEqual((ran.returncode, ran.stderr, b"u: '" in ran.stdout), (1, b"", True))


class Outputs(Folder):
    def test_what_cannot_be_written(self):
        convert = ("convert", "--to", "file")
        for words in (("schedule", "--svg"), ("slack", "--svg"), (*convert, "-o"), (*convert, "--write-names")):
            for bad in (self.folder, self.folder / "no" / "such"):
                ran = run(*words, bad, data=A.bytes())
                self.assertEqual((ran.status, ran.out, f"{bad} cannot be written" in ran.err), (5, b"", True), words)

    def test_converted_files(self):
        out, names = self.folder / "out", self.folder / "names"
        ran = run("convert", "--to", "file", "-o", out, "--write-names", names, data=NAMED)
        self.assertEqual((ran, out.read_bytes(), names.read_text()), ((0, b"", ""), A.bytes(), "u_a/ff[0]\nthe b\n"))
        back = run("convert", "--to", "csv", "--names", names, out)
        self.assertEqual(run("convert", "--to", "csv", data=NAMED).out, back.out.replace(b"host", b"ports"))
        self.assertEqual(run("convert", "--to", "csv", data=back.out).out, back.out)

    def test_one_register_has_no_other_names(self):
        data = b"u\n0\nregister,setup,hold\nhost,1,1\nfrom,to,dmin,dmax\nhost,host,2,9\n"
        names, text = self.folder / "names", self.folder / "text"
        self.assertEqual(run("convert", "--to", "text", "-o", text, "--write-names", names, data=data).status, 0)
        self.assertEqual((run("schedule", "--names", names, text).status, names.read_text()), (0, ""))
        self.assertEqual(run("convert", "--to", "text", "-o", text, "--write-names", text, data=data).status, 2)

    def test_names_that_are_hard_to_write(self):
        for name in ('a"b', '"#x"', "a,b", "a;b", "from here", "registers", "7", "-1e5", "\u00e9\u00df", "a b", "'"):
            made = network([(0, 0, 0, 0), (1, 1, -10, 10)], [(0, 1, 2, 9), (1, 0, 1, 2)])
            names = self.file("names", f"{name}\n")
            table = run("convert", "--to", "csv", "--names", names, data=made.bytes())
            if name == '"#x"':
                self.assertEqual((table.status, table.out), (1, b""))
                continue
            self.assertEqual(run("convert", "--to", "file", data=table.out).out, made.bytes(), name)
            self.assertEqual(run("schedule", "--json", data=table.out).json["latencies"][1]["name"], name)

    def test_what_is_refused_is_converted_and_told(self):
        made = A._replace(u=-7)
        ran = run("convert", "--to", "text", data=made.bytes())
        self.assertEqual((ran.status, run("convert", "--to", "file", data=ran.out).out), (0, made.bytes()))
        self.assertIn("this network has 1 fault; mileparcel check tells", ran.err)

    def test_an_end_that_is_no_register_has_no_name_for_a_table(self):
        made = A._replace(paths=[(0, 3, 2, 9), *A.paths[1:]])
        names = self.file("names", "r1\nr3\n")
        self.assertEqual(run("convert", "--to", "text", "--names", names, data=made.bytes()).status, 0)
        ran = run("convert", "--to", "csv", "--names", names, data=made.bytes())
        self.assertEqual((ran.status, ran.out, "to is register 3" in ran.err), (1, b"", True))


class Names(Folder):
    def test_names_are_printed_back_everywhere(self):
        names = self.file("names", "u_a/ff[0]\nthe b\n")
        for data, words, host in ((NAMED, (), "ports"), (A.text(), ("--names", names), "host"), (A.bytes(), ("--names", names), "host")):
            schedule = run("schedule", *words, data=data).text
            first, third, second = {NAMED: (" (line 8)", " (line 10)", " (line 6)"), A.text(): (" (line 5)", " (line 7)", " (line 4)")}.get(data, ("", "", ""))
            for part in (f"setup of path 0{first}, {host} to u_a/ff[0]\n", f"x({host}) + dmax 9 + setup 1 + u 0 <= x(u_a/ff[0]) + period 8\n",
                         "  u_a/ff[0]   1 ps", "  the b      -1 ps"):
                self.assertIn(part, schedule)
            slacks = run("slack", *words, data=data).text
            for part in (f"hold of path 2{third}, the b to {host}\n", "low end of the window of u_a/ff[0]", f"high end of the window of the b{second}\n"):
                self.assertIn(part, slacks)
            told = run("schedule", "--json", *words, data=data).json
            self.assertEqual([one["name"] for one in told["latencies"]], [host, "u_a/ff[0]", "the b"])
            self.assertEqual([(one["tail"], one["head"]) for one in told["loop"]["rules"]], [(host, "u_a/ff[0]"), ("u_a/ff[0]", host)])
            self.assertEqual([(one["from"], one["to"]) for one in told["loop"]["rules"]], 2 * [(host, "u_a/ff[0]")])
            self.assertEqual({one["head"] for one in run("slack", "--json", *words, data=data).json["slacks"]}, {host, "u_a/ff[0]", "the b"})

    def test_names_in_faults(self):
        wrong = NAMED.replace(b"the b,1,1", b"the b,1,100001").replace(b"host,2,6", b"host,7,6")
        told = run("check", data=wrong.replace(b"the b,ports,2,6", b"the b,ports,7,6")).text
        self.assertIn("line 6: register 2 (the b): hold is 100001 ps, and must be from -100000 to 100000", told)
        self.assertIn("line 10: path 2 (the b to ports): dmin is 7 ps, and must be from 0 to 6 (dmax is 6)", told)
        names = self.file("names", "a\nthe b\n")
        made = A._replace(registers=[*A.registers[:2], (1, 100_001, 0, 0)])
        self.assertIn("register 2 (the b): hold", run("check", "--names", names, data=made.bytes()).text)

    def test_faults_of_a_file_of_names(self):
        for names, told in {"a\n": "1 names beside the host's, where 2 are due", "a\na\n": "a second register 'a'", "": "0 names",
                            "a\n#b\n": "the name '#b' begins with #", "a\nb\nc\nd\n": "4 names", "host\na\n": "1 names beside the host's",
                            "a\nhost\n": "'host', is not the first", "a\nHOST\n": "'HOST', is not the first", "a\nDmin\n": "is a column's title", "\nb\n": "a register's name is missing", "a\x1b\nb\n": "has a control"}.items():
            ran = run("schedule", "--names", self.file("names", names), data=A.bytes())
            self.assertEqual((ran.status, ran.out, told in ran.err), (1, b"", True), names)


if __name__ == "__main__":
    unittest.main()
