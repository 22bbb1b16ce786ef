#!/usr/bin/env python3
"""A network as CSV from the reports that reports.tcl has OpenSTA write.

    reports_to_csv.py U LOW HIGH < reports > csv

U is the clock uncertainty, LOW and HIGH the window of every register but the host, in the reports' unit. No number is rounded here.

A row's Actual is when the data comes, counted from the sender's clock edge, so the clock-to-output delay is in it. Required is the period
less the setup time, or the hold time. Both times hang on the path: on how steep the data's edge is, and on whether it rises or falls. So
a receiver gets the least of its setup times and the least of its hold times, and what a path needs beyond these goes into its own delays,
dmax being longer by it or dmin shorter. The sums that the rules read, dmax + setup and dmin - hold, are those of the reports to the digit.
"""

import re
import sys
from decimal import Decimal

SKIPPED = re.compile(r"\s*|\s+Required\s+Actual|Endpoint\s+Delay\s+Delay\s+Slack|-+|No paths found\.")
PERIOD = re.compile(r"period [0-9]+(?:\.[0-9]+)?")
CHECK = re.compile(r"(max_delay/setup|min_delay/hold) group \S+")
ROW = re.compile(r"(\S+) \(\S+\)\s+(-?[0-9]+\.[0-9]+)\s+(-?[0-9]+\.[0-9]+)\s+-?[0-9]+\.[0-9]+ \((?:MET|VIOLATED)\)")
HOST = "host"


class Malformed(Exception):
    """Reports that are not those of reports.tcl, or that do not make a network."""


class Reports:
    """The registers, and the checks of each pair of them as pairs of a time and a delay."""

    def __init__(self, lines):
        self.period = self.sender = self.check = None
        self.registers, self.setups, self.holds = [], {}, {}
        for count, line in enumerate(lines, start=1):
            try:
                self.read(line.rstrip())
            except Malformed as fault:
                raise Malformed(f"line {count}: {fault}") from None

    def read(self, line):
        word, _, rest = line.partition(" ")
        if PERIOD.fullmatch(line):
            self.period = Decimal(rest)
        elif word == "from":
            self.sender, self.check = register_of(rest), None
            if self.sender not in self.registers:
                self.registers.append(self.sender)
        elif CHECK.fullmatch(line):
            self.check = word
        elif ROW.fullmatch(line):
            self.row(*ROW.fullmatch(line).groups())
        elif not SKIPPED.fullmatch(line):
            raise Malformed(f"'{line}' is not of a setup or hold report in the format 'end'")

    def row(self, pin, required, actual):
        if self.period is None or self.sender is None or self.check is None:
            raise Malformed("a row before its period, sender or kind of check")
        pair = self.sender, register_of(pin)
        if self.check == "max_delay/setup":
            self.setups.setdefault(pair, []).append((self.period - Decimal(required), Decimal(actual)))
        else:
            self.holds.setdefault(pair, []).append((Decimal(required), Decimal(actual)))

    def judge(self):
        """Refuses what would be lost without a word."""
        if self.registers[:1] != [HOST]:
            raise Malformed("the first sender is not 'host'")
        if self.setups.keys() != self.holds.keys():
            raise Malformed("a pair has a setup check and no hold check, or a hold check and no setup check")
        for _, receiver in self.setups:
            if receiver not in self.registers:
                raise Malformed(f"nothing is reported from {receiver}, which receives")


def register_of(pin):
    """The name of the register that the pin belongs to. A port belongs to the host, and so does the sender's name 'host'."""
    return pin.rpartition("/")[0] or HOST


def least_times(checks, registers):
    """The least setup or hold time of each receiver; 0 where no path leads to it."""
    times = {register: [] for register in registers}
    for (_, receiver), rows in checks.items():
        times[receiver] += [time for time, _ in rows]
    return {register: min(times[register], default=Decimal(0)) for register in registers}


def csv(reports, u, low, high):
    """The three tables. Of several checks of a pair the worst counts."""
    setup, hold = (least_times(checks, reports.registers) for checks in (reports.setups, reports.holds))
    lines = ["floor,ceiling,u", f"0.001,{reports.period},{u}", "", "register,setup,hold,low,high"]
    for register in reports.registers:
        window = "0,0" if register == HOST else f"{low},{high}"
        lines.append(f"{register},{setup[register]},{hold[register]},{window}")
    lines += ["", "from,to,dmin,dmax"]
    for sender in reports.registers:
        for receiver in reports.registers:
            pair = sender, receiver
            if pair in reports.setups:
                dmin = min(actual - time for time, actual in reports.holds[pair]) + hold[receiver]
                dmax = max(actual + time for time, actual in reports.setups[pair]) - setup[receiver]
                lines.append(f"{sender},{receiver},{dmin},{dmax}")
    return "\n".join(lines) + "\n"


def main(words):
    if len(words) != 3:
        print(__doc__, file=sys.stderr, end="")
        return 2
    try:
        reports = Reports(sys.stdin)
        reports.judge()
        print(csv(reports, *words), end="")
    except Malformed as fault:
        print(f"reports_to_csv.py: {fault}", file=sys.stderr)
        return 1
    return 0


if __name__ == "__main__":
    sys.exit(main(sys.argv[1:]))
