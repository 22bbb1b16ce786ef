"""Slacks at the answer and at latencies of the caller, and the inequalities of a loop as they are printed."""

import random
import re
import subprocess
import unittest
from fractions import Fraction

from support import A4, A7, NAMED, ROOT, A, D, Folder, network, run

TOGGLE = network([(0, 0, 0, 0), (2, 2, -10, 10)], [(1, 1, 2, 5)], u=3)


class Slacks(Folder):
    def test_worst_and_kind(self):
        every = run("slack", "--json", data=A.bytes()).json["slacks"]
        self.assertEqual(run("slack", "--json", "--worst", "3", data=A.bytes()).json["slacks"], every[:3])
        self.assertEqual(run("schedule", "--json", "--worst", "4", data=A.bytes()).json["slacks"], every[:4])
        self.assertEqual(run("schedule", "--json", data=A.bytes()).json["slacks"], every[:5])
        kinds = run("slack", "--json", "--kind", "hold", "--kind", "low", data=A.bytes()).json["slacks"]
        self.assertEqual(kinds, [one for one in every if one["kind"] in ("hold", "low")])
        told = run("slack", "--worst", "2", data=A.bytes()).text.splitlines()
        self.assertEqual((told[0], len(told), told[3]), ("slacks at 9 ps: 10 rules, all met", 5, "  and 8 more, each at least 0 ps"))
        self.assertNotIn("setup", run("slack", "--kind", "high", data=A.bytes()).text)

    def test_the_period_that_the_setup_rules_allow(self):
        told = run("slack", "--no-skew", "--period", "3", data=A.bytes()).text
        self.assertIn("slacks at 3 ps: 10 rules, 3 of them broken", told)
        self.assertTrue(told.endswith("with these latencies every setup rule is met from 10 ps up\n"), told)

    def test_no_skew(self):
        for period in (1, 9, 10_000_000):
            told = run("slack", "--json", "--no-skew", "--period", period, data=A.bytes()).json
            found = {(one["kind"], one["number"]): one["slack"] for one in told["slacks"]}
            self.assertEqual(found, {rule: A.slack(*rule, period, [0, 0, 0]) for rule in A.rules()})

    def test_latencies_in_every_form(self):
        listed = "period 9\nlatency 0 0\nlatency 1 1\nlatency 2 -1\nloop 8\nsetup 0\nhold 0\n"
        answer = run("schedule", "--json", data=NAMED).text
        due = run("slack", "--json", data=NAMED).json["slacks"]
        for content in (answer, listed, "u_a/ff[0] 1\nthe b,-1\n", "register,latency\nports,0\nu_a/ff[0],1\nthe b,-1\n", "# x\n1 1\n2 -1\n",
                        "0;0\n1;1\nthe b;-1", "2\t-1\r\n1\t1\r\n"):
            told = run("slack", "--json", "--period", "9", "--latencies", self.file("latencies", content), data=NAMED)
            self.assertEqual((told.status, told.err), (0, ""), content)
            self.assertEqual(told.json["slacks"], due, content)
        own = self.file("latencies", "1 0.001\n2 -0.001\n")
        told = run("slack", "--json", "--unit", "ns", "--period", "0.009", "--latencies", own, data=A.bytes())
        self.assertEqual([one["slack"] for one in told.json["slacks"]], [one["slack"] for one in due])
        listing = subprocess.run([str(ROOT / "list"), str(self.file("a.net", A.bytes()))], capture_output=True, text=True, check=True)
        self.assertEqual(listing.stdout, listed)

    def test_a_listing_goes_by_numbers_where_names_are_digits(self):
        data = A.csv().decode().replace("n1", "2").replace("n2", "1").encode()
        listed = self.file("latencies", "period 9\nlatency 0 0\nlatency 1 1\nlatency 2 -1\n")
        told = run("slack", "--json", "--period", "9", "--latencies", listed, data=data).json
        self.assertEqual([(one["name"], one["latency"]) for one in told["latencies"]], [("n0", 0), ("2", 1), ("1", -1)])
        named = run("slack", "--json", "--period", "9", "--latencies", self.file("latencies", "2 1\n1 -1\n"), data=data).json
        self.assertEqual(named["latencies"], told["latencies"])

    def test_latencies_in_json_go_by_numbers_and_names(self):
        """Registers called r2 and r1, in this order: the text made of the table has no names, and would call them r1 and r2."""
        table = A.csv().decode().replace("n1", "r0").replace("n2", "r1").replace("r0", "r2").encode()
        answer = self.file("answer.json", run("schedule", "--json", data=table).out)
        words = ("slack", "--json", "--period", "9", "--latencies", answer)
        for data in (table, run("convert", "--to", "text", data=table).out, run("convert", "--to", "file", data=table).out):
            told = run(*words, data=data).json
            self.assertEqual(([one["latency"] for one in told["latencies"]], told["broken"]), ([0, 1, -1], 0))
        ran = run(*words, data=A.csv())
        self.assertEqual((ran.status, "register 1 is called 'r2' there, and 'n1' here" in ran.err), (1, True))

    def test_a_register_called_period(self):
        data = A.csv().decode().replace("n1", "period").encode()
        told = run("slack", "--json", "--period", "9", "--latencies", self.file("latencies", "period 1\nn2 -1\n"), data=data).json
        self.assertEqual([one["latency"] for one in told["latencies"]], [0, 1, -1])

    def test_faults_of_latencies(self):
        deep = '{"latencies": ' + "[" * 100_000
        for content, told in {
            "1 1\n": "the latency of r2 is missing", "": "no latencies here", "1 1\n2 2\n3 3\n": "line 3: '3' is no register",
            "1 1\n1 2\n": "line 2: a second latency of 1", "1 1\nr1 2\n": "a second latency of r1", "0 5\n1 1\n2 2\n": "the host's latency is 0",
            "1 1.5\n2 2\n": "line 1: latency of 1: 1.5 ps is no whole number", "1 x\n2 2\n": "'x' is no number",
            "1 1000001\n2 2\n": "from -1000000 to 1000000 ps", "1 " + "9" * 5000: "too long",
            "1 1 1\n": "line 1: '1 1 1' is no register and its latency", A.bytes(): "is no register and its latency",
            "{}": "no latencies in this JSON", "{": "no latencies", deep: "no latencies", '{"latencies": [1]}': "no latencies",
            '{"latencies": [{"register": [], "name": "", "latency": 1}]}': "'[]' is no register", '{"latencies": [{"name": "r1", "latency": 1}]}': "no latencies",
            '{"latencies": [{"register": 1, "name": "r1", "latency": null}]}': "'None' is no number",
            "refused 8 0\nloop 100\n": "is no register and its latency", "period 9\nlatency 0 0\nlatency 7 0\n": "line 3: '7' is no register",
            "period 9\nlatency 0 0\nlatency 1 1\n": "the latency of r2 is missing",
            "7 0\nr1;0,5\n": "line 2: latency of r1: '0,5' is no number: write a decimal point",
        }.items():
            ran = run("slack", "--period", "9", "--latencies", self.file("latencies", content), data=A.bytes())
            printable = all(line.isprintable() for line in ran.err.split("\n"))
            self.assertEqual((ran.status, ran.out, told in ran.err, printable), (1, b"", True, True), (content[:40], ran))


class Loops(unittest.TestCase):
    """The inequalities of a loop, read back from the report."""

    def bounds(self, text):
        """Each rule's two lines, its inequality and its bound, and the sum at the end."""
        rows = re.findall(r"^  [a-z].*\n    (.*)\n    so (.*)$", text, flags=re.M)
        around = next(line for line in text.splitlines() if "around the loop: " in line).split(": ")[1].split(", which")[0]
        self.assertRegex(around, r"^-?[0-9.]+( [+-] [0-9.]+)*( = [0-9.]+)?$")
        return rows, around

    def terms(self, words):
        """A sum such as `x(a) + dmax 5 - 3`: its latency, the host's where there is none, and its number."""
        parts = re.findall(r"([+-]?) ?(x\([^)]*\)|(?:[a-z]+ )?-?[0-9.]+)", words)
        number = sum(Fraction(part.split()[-1]) * (-1 if sign == "-" else 1) for sign, part in parts if part[0] != "x")
        return [part for _, part in parts if part[0] == "x"] or ["x(host)"], number

    def amount(self, words):
        """Which latency is at least which other plus how much: tail, head, amount."""
        left, sign, right = re.fullmatch("(.*) ([<>]=) (.*)", words).groups()
        (more, plus), (less, minus) = (self.terms(side) for side in ((left, right) if sign == ">=" else (right, left)))
        return less, more, minus - plus

    def closes(self, words, data):
        told, ran = run(*words, "--json", data=data).json["loop"], run(*words, data=data)
        rows, around = self.bounds(ran.text)
        scale = 1000 if "ns" in words else 1
        names = [self.amount(written)[:2] for written, _ in rows]
        amounts = [self.amount(written)[2] * scale for written, _ in rows]
        for (written, bound), rule in zip(rows, told["rules"]):
            self.assertEqual(self.amount(written), self.amount(bound))
            self.assertEqual(self.amount(bound)[2] * scale, rule["amount"])
        self.assertEqual(len(rows), len(told["rules"]))
        self.assertEqual([head for _, head in names], [tail for tail, _ in names[1:] + names[:1]])
        self.assertEqual((sum(amounts), sum(amounts) > 0), (told["sum"], True))
        total = around.split(" = ")
        self.assertEqual([self.terms(part)[1] * scale for part in total], [told["sum"]] * len(total))
        return ran.text

    def test_they_are_true(self):
        window = D._replace(registers=[D.registers[0], (0, 0, 0, 1)])
        low = D._replace(registers=[D.registers[0], (0, 0, 5, 9)])
        negative = A._replace(registers=[(-4, -1, 0, 0), (-3, 7, -10, 10), (1, 1, -10, -10)])
        for made in (A, A4, A7, D, window, low, TOGGLE, negative):
            for words in ((), ("--unit", "ns")):
                self.closes(("schedule", *words), made.bytes())
        for command in ("schedule", "slack"):
            self.closes((command, "--period", "3"), A.bytes())

    def test_they_are_true_on_random_networks(self):
        chance = random.Random(4)
        kinds, looped = set(), 0
        for _ in range(150):
            n = chance.randint(1, 4)
            registers = [(chance.randint(-5, 9), chance.randint(-5, 4), 0, 0)]
            registers += [(chance.randint(-5, 9), chance.randint(-5, 4), *sorted(chance.sample(range(-9, 10), 2))) for _ in range(n - 1)]
            paths = [(chance.randrange(n), chance.randrange(n), *sorted(chance.sample(range(30), 2))) for _ in range(chance.randint(1, 6))]
            made = network(registers, paths, ceiling=chance.randint(1, 50), u=chance.randint(0, 3))
            rules = (run("schedule", "--json", data=made.bytes()).json["loop"] or {"rules": []})["rules"]
            if rules:
                self.closes(("schedule",), made.bytes())
                looped += 1
            kinds.update(rule["kind"] for rule in rules)
        self.assertEqual((kinds, looped > 100), ({"setup", "hold", "low", "high"}, True))

    def test_what_stands_beside_them(self):
        self.assertIn("This loop needs a period of at least 9 ps; others may need more.", self.closes(("schedule",), A4.bytes()))
        self.assertIn("refused 9: no schedule up to the ceiling, 8 ps", run("schedule", data=A4.bytes()).text)
        self.assertIn("so no period helps", self.closes(("schedule",), A7.bytes()))
        self.assertIn("at 8 ps there is no schedule", self.closes(("schedule", "--period", "8"), A.bytes()))
        self.assertIn("20 ps is the floor, so no shorter period was looked for", run("schedule", data=A._replace(floor=20).bytes()).text)
        self.assertIn("why the clock cannot have 8 ps", run("schedule", data=A.bytes()).text)

    def test_without_skew_what_else_is_broken_is_told(self):
        made = A._replace(registers=[*A.registers[:2], (1, 1, 2, 10)])
        told = run("schedule", data=made.bytes())
        self.assertIn("with every latency 0, by the setup rules alone: broken there is low end of the window of r2, by 2 ps", told.text)
        self.assertEqual(run("schedule", "--json", data=made.bytes()).json["without_skew"], {"period": 10, "broken": 1, "worst": -2})


if __name__ == "__main__":
    unittest.main()
