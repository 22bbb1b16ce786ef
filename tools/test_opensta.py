#!/usr/bin/env python3
"""Tests of the circuit that is worked from OpenSTA's reports on, in examples/opensta: python3 test_opensta.py

OpenSTA is not needed: its reports are stored.
"""

import re
import subprocess
import sys
import unittest
from decimal import ROUND_CEILING, ROUND_FLOOR, Decimal
from pathlib import Path

import network

RUN = Path(__file__).resolve().parent / "run"
FOLDER = Path(__file__).resolve().parent.parent / "examples" / "opensta"
ASKED = ["0.02", "0", "0.3"]  # u and the window, as docs/USING.md asks for them
TITLES = {"floor", "register", "from"}
UP, DOWN = ROUND_CEILING, ROUND_FLOOR
HEAD = "period 10\nfrom host\nmax_delay/setup group clk\n"


def stored(name):
    return (FOLDER / name).read_text()


def to_csv(reports, *words):
    words = [sys.executable, str(FOLDER / "reports_to_csv.py"), *(words or ASKED)]
    return subprocess.run(words, input=reports, capture_output=True, text=True)


def tables(csv):
    """The cells of each table, by its first title."""
    found, title = {}, None
    for cells in (line.split(",") for line in csv.splitlines() if line):
        if cells[0] in TITLES:
            title = cells[0]
        else:
            found.setdefault(title, []).append(cells)
    return found


def picoseconds(cells, directions):
    return [int((Decimal(cell) * 1000).to_integral_value(way)) for cell, way in zip(cells, directions)]


def text_of(csv):
    """The network as tools/network.py's text, rounded to the safe side."""
    found = tables(csv)
    number = {cells[0]: count for count, cells in enumerate(found["register"])}
    lines = ["network floor {} ceiling {} u {}".format(*picoseconds(found["floor"][0], [UP, DOWN, UP]))]
    for cells in found["register"]:
        lines.append("register setup {} hold {} low {} high {}".format(*picoseconds(cells[1:], [UP, UP, UP, DOWN])))
    for source, sink, *delays in found["from"]:
        lines.append("path {} {} {} {}".format(number[source], number[sink], *picoseconds(delays, [DOWN, UP])))
    return "\n".join(lines) + "\n"


def sections(reports):
    """The rows of each report, as (receiver, required, actual), by the sender and the kind of the check."""
    for section in re.split(r"^from ", reports, flags=re.M)[1:]:
        sender = section.split()[0].replace("/CLK", "")
        for kind, part in zip(["setup", "hold"], section.split("min_delay/hold")):
            rows = re.findall(r"^(\S+) \(\S+\) +(\S+) +(\S+)", part, flags=re.M)
            yield sender, kind, [(pin[:-2] if pin.endswith("/D") else "host", Decimal(r), Decimal(a)) for pin, r, a in rows]


class FromReportsToCsv(unittest.TestCase):
    def test_the_stored_reports_give_the_stored_csv(self):
        made = to_csv(stored("dds.reports"))
        self.assertEqual((made.returncode, made.stdout, made.stderr), (0, stored("dds.csv"), ""))

    def test_the_sums_that_the_rules_read_are_those_of_the_reports(self):
        found = tables(stored("dds.csv"))
        times = {name: (Decimal(setup), Decimal(hold)) for name, setup, hold, _, _ in found["register"]}
        sums = {}
        for source, sink, dmin, dmax in found["from"]:
            sums["setup", source, sink] = Decimal(dmax) + times[sink][0]
            sums["hold", source, sink] = Decimal(dmin) - times[sink][1]
        reported = {}
        for sender, kind, rows in sections(stored("dds.reports")):
            for receiver, required, actual in rows:
                reported[kind, sender, receiver] = actual + 10 - required if kind == "setup" else actual - required
        self.assertEqual(sums, reported)

    def test_of_several_checks_of_a_pair_the_worst_counts(self):
        setups = ["a/D (DFF) 9.8 0.5 9.3 (MET)", "a/E (DFF) 9.7 0.45 9.25 (MET)"]
        holds = ["a/D (DFF) 0.01 0.3 0.29 (MET)", "a/E (DFF) 0.03 0.31 0.28 (MET)"]
        made = to_csv(HEAD + "\n".join(setups + ["min_delay/hold group clk"] + holds + ["from a/CLK", "No paths found."]))
        self.assertEqual(made.stderr, "")
        self.assertEqual(tables(made.stdout)["register"], [["host", "0", "0", "0", "0"], ["a", "0.2", "0.01", "0", "0.3"]])
        self.assertEqual(tables(made.stdout)["from"], [["host", "a", "0.29", "0.55"]])

    def test_what_is_no_report_is_refused_with_its_line(self):
        both = HEAD + "a/D (DFF) 9.8 0.5 9.3 (MET)\nmin_delay/hold group clk\na/D (DFF) 0.1 0.5 0.4 (MET)"
        faults = {
            both: "nothing is reported from a, which receives",
            both.replace("host", "a/CLK"): "the first sender is not 'host'",
            HEAD + "a/D (DFF) 9.8 0.5": "line 4: 'a/D (DFF) 9.8 0.5' is not of a setup or hold report in the format 'end'",
            HEAD + "Startpoint: a": "line 4: 'Startpoint: a' is not of a setup or hold report in the format 'end'",
            "period 10\nfrom host\na/D (DFF) 9.8 0.5 9.3 (MET)": "line 3: a row before its period, sender or kind of check",
            HEAD + "out (output) 9.8 0.5 9.3 (MET)": "a pair has a setup check and no hold check, or a hold check and no setup check",
        }
        for reports, fault in faults.items():
            made = to_csv(reports)
            self.assertEqual((made.returncode, made.stdout, made.stderr), (1, "", f"reports_to_csv.py: {fault}\n"))
        self.assertEqual(to_csv(HEAD, "0.02").returncode, 2)


def worst_slacks(csv, listing):
    """The least slack of any setup rule and that of any hold rule at the listed answer, in nanoseconds and before any rounding."""
    found = tables(csv)
    number = {cells[0]: count for count, cells in enumerate(found["register"])}
    period = Decimal(listing.split()[1]) / 1000
    latency = [Decimal(x) / 1000 for x in re.findall(r"^latency \d+ (\S+)", listing, flags=re.M)]
    u, setups, holds = Decimal(found["floor"][0][2]), [], []
    for source, sink, dmin, dmax in found["from"]:
        i, j = number[source], number[sink]
        setup, hold = (Decimal(time) for time in found["register"][j][1:3])
        setups.append(latency[j] + period - latency[i] - Decimal(dmax) - setup - u)
        holds.append(latency[i] + Decimal(dmin) - latency[j] - hold - (0 if i == j else u))
    return min(setups), min(holds)


class TheAnswer(unittest.TestCase):
    def test_the_csv_gives_the_stored_listing(self):
        data = network.make(text_of(stored("dds.csv")))
        listed = subprocess.run([str(RUN), "skewlist"], input=data, capture_output=True, check=True)
        self.assertEqual(listed.stdout.decode(), stored("dds.list"))

    def test_opensta_confirmed_the_stored_listing(self):
        period = int(stored("dds.list").split()[1])
        at, before = re.split(r"^period ", stored("dds.confirmed"), flags=re.M)[1:]
        self.assertEqual((at.split()[0], before.split()[0]), (str(period), str(period - 1)))
        self.assertEqual(re.findall(r"\((MET|VIOLATED)\)", at), ["MET", "MET"])
        self.assertEqual(re.findall(r"\((MET|VIOLATED)\)", before), ["VIOLATED", "MET"])
        slacks = [Decimal(slack) for slack in re.findall(r"(\S+) \(MET\)", at)]
        for slack, reckoned in zip(slacks, worst_slacks(stored("dds.csv"), stored("dds.list"))):
            self.assertLessEqual(abs(slack - reckoned), Decimal("0.000002"))


if __name__ == "__main__":
    unittest.main()
