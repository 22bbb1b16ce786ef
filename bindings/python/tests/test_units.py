"""Times as people write them: read exactly, in picoseconds or nanoseconds, and rounded to the side on which no rule becomes easier to meet."""

import random
import unittest
from fractions import Fraction

from support import A, network, parsed, run

UP = ("dmax", "setup", "hold", "u", "low", "floor")
DOWN = ("dmin", "high", "ceiling")
TEXT = "network floor {floor} ceiling {ceiling} u {u}\nregister setup 0 hold 0 low 0 high 0\n" \
       "register setup {setup} hold {hold} low {low} high {high}\npath 0 1 {dmin} {dmax}\n"
TABLE = "floor,ceiling,u\n{floor},{ceiling},{u}\nregister,setup,hold,low,high\nhost,0,0,0,0\na,{setup},{hold},{low},{high}\n" \
        "from,to,dmin,dmax\nhost,a,{dmin},{dmax}\n"
PLAIN = dict(floor="1", ceiling="9", u="0", setup="0", hold="0", low="-1", high="1", dmin="0", dmax="1")


def numbers(data, unit, *words):
    """The numbers of the file that a text or table of one path becomes, by their names; None where it is refused."""
    ran = run("convert", "--to", "file", "--unit", unit, *words, data=data.encode())
    if ran.status:
        return None
    made = parsed(ran.out)
    return {"floor": made.floor, "ceiling": made.ceiling, "u": made.u, **dict(zip(("setup", "hold", "low", "high"), made.registers[1])),
            "dmin": made.paths[0][2], "dmax": made.paths[0][3]}


class Exactly(unittest.TestCase):
    def setup_time(self, word, unit):
        return numbers(TEXT.format(**{**PLAIN, "setup": word}), unit)["setup"]

    def test_words(self):
        for word, due in {"0.1": 100, "0.3": 300, "-0.7": -700, "1.001": 1001, "+2": 2000, "1e1": 10_000, "5E-2": 50, ".25": 250, "7.": 7000,
                          "2.675": 2675, "0.29": 290, "1e-3": 1, "000.0010": 1, "0.0000": 0, "-0": 0, "99.99900000000000000000": 99_999}.items():
            self.assertEqual(self.setup_time(word, "ns"), due, word)
        for word, picoseconds in {"100000": 100_000, "1e5": 100_000, "-1.5e2": -150, "12.000": 12, "+7": 7}.items():
            self.assertEqual(self.setup_time(word, "ps"), picoseconds, word)

    def test_every_thousandth_of_a_nanosecond(self):
        for time in [*range(-1100, 1100, 7), 99_999, 99_997, -99_999]:
            word = f"{'-' if time < 0 else ''}{abs(time) // 1000}.{abs(time) % 1000:03d}"
            self.assertEqual(self.setup_time(word, "ns"), time)

    def test_words_that_are_no_time(self):
        digits = "9" * 10_000
        for word in ("nan", "inf", "-inf", "Infinity", "1e99", "-1e99", "1e100", "1e999999999", digits, f"0.{digits}", f"1e{digits}", "0x10",
                     "1_000", "--5", "e5", ".", "-", "1e", "1.5.", "\uff11\uff12", "\u0663", "1/2", "1 000", "1'000", "x" * 10_000, "%s", "None"):
            for data, words in ((TEXT, ()), (TABLE, ())):
                ran = run("check", "--unit", "ns", *words, data=data.format(**{**PLAIN, "setup": word}).encode())
                self.assertEqual((ran.status, ran.err), (1, ""), word[:20])
                self.assertIn("line ", ran.text)
                self.assertLess(len(ran.text), 1000)
            self.option(word)

    def option(self, word):
        """The same word where the call has it."""
        told = run("check", f"--setup={word}", data=b"from,to,dmin,dmax\n")
        self.assertEqual((told.status, told.err), (1, ""))
        period = run("schedule", f"--period={word}", data=A.bytes())
        self.assertEqual((period.status, period.out), (2, b""))
        self.assertTrue(period.err.startswith("mileparcel: --period: "), period.err[:60])

    def test_a_decimal_comma_is_told(self):
        ran = run("check", data=TABLE.replace(",", ";").format(**{**PLAIN, "setup": "1,5"}).encode())
        self.assertIn("line 5: setup: '1,5' is no number", ran.text)


class Rounded(unittest.TestCase):
    def test_which_way_each_field_goes(self):
        for form in (TEXT, TABLE):
            for fields, way in ((UP, 1), (DOWN, 0)):
                for field in fields:
                    for word, below in {"2.0001": 2000, "2.0009999": 2000, "2.5": 2500}.items():
                        beside = {**PLAIN, "dmax": "3", "high": "3", field: word}
                        whole = word == "2.5"
                        self.assertEqual(numbers(form.format(**beside), "ns")[field], below if whole else below + way, (field, word))
                        told = run("check", "--json", "--unit", "ns", data=form.format(**beside).encode()).json
                        self.assertEqual(told["input"]["rounded"], 0 if whole else 1)

    def test_negative_times_go_the_same_way(self):
        for field, due in {"setup": -2000, "hold": -2000, "low": -2000, "high": -2001}.items():
            beside = {**PLAIN, "low": "-3", field: "-2.0004"}
            self.assertEqual(numbers(TEXT.format(**beside), "ns")[field], due, field)

    def test_the_least_there_is(self):
        told = numbers(TEXT.format(**{**PLAIN, "dmin": "1e-99", "dmax": "1e-99", "u": "0.0001", "floor": "0.0001"}), "ns")
        self.assertEqual([told[field] for field in ("dmin", "dmax", "u", "floor")], [0, 1, 1, 1])

    def test_options_are_rounded_so_too(self):
        data = "from,to,dmin,dmax\nhost,a,1,2\n"
        words = ("--setup", "0.0001", "--hold=-0.0001", "--window=-0.0019,0.0019", "--u", "0.0001", "--floor", "0.0011", "--ceiling", "1.0009")
        told = numbers(data, "ns", *words)
        self.assertEqual([told[field] for field in ("setup", "hold", "low", "high", "u", "floor", "ceiling")], [1, 0, -1, 1, 1, 2, 1000])

    def test_a_window_without_a_whole_picosecond_is_told(self):
        ran = run("check", data=TEXT.format(**{**PLAIN, "low": "0.2", "high": "0.8"}).encode())
        self.assertIn("high is 0 ps, and must be from 1 to 1000000 (low is 1)", ran.text)

    def test_it_is_told(self):
        data = TEXT.format(**{**PLAIN, "setup": "0.5", "u": "0.25"}).encode()
        for command in ("schedule", "slack", "check"):
            self.assertTrue(run(command, data=data).text.splitlines()[-1].startswith("2 of the times were rounded"), command)
        ran = run("convert", "--to", "text", data=data)
        self.assertIn("2 of the times were rounded", ran.err)
        self.assertNotIn(b"rounded", ran.out)

    def test_periods_and_latencies_are_never_rounded(self):
        self.assertEqual(run("schedule", "--period", "9.5", data=A.bytes()).status, 2)
        self.assertEqual(run("schedule", "--period", "0.009", "--unit", "ns", data=A.bytes()).status, 0)


class TheSafeSide(unittest.TestCase):
    """A schedule of the rounded network meets every rule of the network as it was written, in fractions of a picosecond."""

    def exact(self, chance):
        """A network of exact fractions, and the words for it."""
        def word(least, greatest):
            return f"{chance.uniform(least, greatest):.{chance.choice((1, 3, 4, 5))}f}"

        n = chance.randint(1, 5)
        registers = [[word(-2, 4), word(-2, 2), "0", "0"]]
        for _ in range(n - 1):
            low, high = sorted((word(-6, 6), word(-6, 6)), key=Fraction)
            registers.append([word(-2, 4), word(-2, 2), low, high])
        paths = []
        for _ in range(chance.randint(1, 8)):
            dmin, dmax = sorted((word(0, 9), word(0, 9)), key=Fraction)
            paths.append([str(chance.randrange(n)), str(chance.randrange(n)), dmin, dmax])
        return network(registers, paths, word(0.1, 2), word(9, 30), word(0, 1))

    def test_on_random_networks(self):
        chance = random.Random(3)
        answered = 0
        for _ in range(700):
            words = self.exact(chance)
            unit, scale = chance.choice((("ps", 1), ("ns", 1000)))
            ran = run("schedule", "--json", "--unit", unit, data=words.text())
            if ran.status == 0:
                self.meets(words, scale, ran.json)
                answered += 1
        self.assertGreater(answered, 150)

    def meets(self, words, scale, told):
        every = [[scale * Fraction(word) for word in register] for register in words.registers]
        paths = [(int(source), int(sink), scale * Fraction(dmin), scale * Fraction(dmax)) for source, sink, dmin, dmax in words.paths]
        made = network(every, paths, *(scale * Fraction(word) for word in (words.floor, words.ceiling, words.u)))
        latencies = [one["latency"] for one in told["latencies"]]
        self.assertTrue(made.floor <= told["period"] <= made.ceiling)
        for rule in made.rules():
            self.assertGreaterEqual(made.slack(*rule, told["period"], latencies), 0, words)
        self.assertGreaterEqual(told["without_skew"]["period"], max(made.arrow("setup", p)[2] for p in range(made.m)))


class Shown(unittest.TestCase):
    def test_nanoseconds_are_shown_to_the_picosecond(self):
        ran = run("schedule", "--unit", "ns", data=A.bytes())
        self.assertIn("period        0.009 ns\nwithout skew  0.010 ns", ran.text)
        self.assertIn("r2    -0.001 ns", ran.text)
        self.assertNotIn(" ps", ran.text)
        self.assertEqual(run("schedule", "--json", "--unit", "ns", data=A.bytes()).json["period"], 9)

    def test_ranges_are_told_in_the_unit(self):
        ran = run("check", "--unit", "ns", data=TEXT.format(**{**PLAIN, "u": "10.0001"}).encode())
        self.assertIn("u is 10.001 ns, and must be from 0.000 to 10.000", ran.text)


if __name__ == "__main__":
    unittest.main()
