"""The eight real circuits at both settings: periods, latencies and names, as examples/real has them."""

import unittest

from support import ROOT, run

REAL = ROOT / "examples" / "real"
CIRCUITS = ["caprng", "dds", "desround", "fifo", "framer", "mxuart", "pcpimul", "rs232send"]


def table():
    """The rows of the table in the folder's README: registers, paths, the period without skew, and those at 10 % and 30 %."""
    rows = {}
    for line in (REAL / "README.md").read_text().splitlines():
        cells = [cell.strip().strip("`") for cell in line.strip("|").split("|")]
        if cells[0] in CIRCUITS:
            rows[cells[0]] = [int(cell.replace(",", "")) for cell in cells[-5:]]
    return rows


def listed(name):
    """Period, latencies and loop of a stored listing."""
    words = [line.split() for line in (REAL / f"{name}.list").read_text().splitlines()]
    loop = next((i for i, line in enumerate(words) if line[0] == "loop"), len(words))
    return int(words[0][1]), [int(line[2]) for line in words[1:loop]], [[kind, int(number)] for kind, number in words[loop + 1:]]


class RealCircuits(unittest.TestCase):
    def test_schedules(self):
        rows = table()
        self.assertEqual(sorted(rows), CIRCUITS)
        for circuit in CIRCUITS:
            names = (REAL / f"{circuit}.names").read_text().split()
            for setting, column in ((10, 3), (30, 4)):
                name = f"{circuit}-{setting}"
                told = run("schedule", "--json", "--names", REAL / f"{circuit}.names", REAL / f"{name}.txt").json
                period, latencies, loop = listed(name)
                counts = [told["input"]["network"][key] for key in ("registers", "paths")]
                self.assertEqual([*counts, told["without_skew"]["period"], told["period"]], [*rows[circuit][:3], rows[circuit][column]], name)
                self.assertEqual((told["period"], told["gain"]), (period, rows[circuit][2] - period), name)
                self.assertEqual([one["latency"] for one in told["latencies"]], latencies, name)
                self.assertEqual([one["name"] for one in told["latencies"]], ["host", *names], name)
                self.assertEqual([[rule["kind"], rule["number"]] for rule in told["loop"]["rules"]], loop, name)

    def test_hold_rules_fail_without_skew_in_one_of_them(self):
        broken = {circuit: run("schedule", "--json", REAL / f"{circuit}-10.txt").json["without_skew"]["broken"] for circuit in CIRCUITS}
        self.assertEqual({circuit: count for circuit, count in broken.items() if count}, {"framer": 27})

    def test_the_stored_listing_meets_every_rule(self):
        for circuit in CIRCUITS:
            name = f"{circuit}-30"
            period, latencies, _ = listed(name)
            given = ("--period", period, "--latencies", REAL / f"{name}.list", "--names", REAL / f"{circuit}.names")
            ran = run("slack", "--json", *given, REAL / f"{name}.txt")
            self.assertEqual((ran.status, [one["latency"] for one in ran.json["latencies"]]), (0, latencies), name)
            self.assertGreaterEqual(ran.json["slacks"][0]["slack"], 0, name)

    def test_a_report_has_the_clock_pins_names(self):
        ran = run("schedule", "--names", REAL / "dds.names", REAL / "dds-30.txt")
        for pin in (REAL / "dds.names").read_text().split():
            self.assertIn(f"  {pin} ", ran.text)


if __name__ == "__main__":
    unittest.main()
