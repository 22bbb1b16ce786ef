#!/usr/bin/env python3
"""Tests of the text form and of examples.py: python3 test_network.py"""

import subprocess
import sys
import tempfile
import unittest
from pathlib import Path

import examples
import network
from mileparcel.network import NoNetwork

HERE = Path(__file__).resolve().parent
REGISTERS_A = ["register setup 1 hold 1 low 0 high 0"] + 2 * ["register setup 1 hold 1 low -10 high 10"]
PATHS_A = ["path 0 1 2 9", "path 1 2 2 3", "path 2 0 2 6"]
PATHS_D = ["path 0 1 5 10", "path 1 0 5 5"]


def text(*lines, floor=1, ceiling=100, u=0):
    return "\n".join([f"network floor {floor} ceiling {ceiling} u {u}", *lines]) + "\n"


def variant_a(**limits):
    return text(*REGISTERS_A, *PATHS_A, **limits)


def variant_d(low, high):
    registers = ["register setup 0 hold 0 low 0 high 0", f"register setup 0 hold 0 low {low} high {high}"]
    return text(*registers, *PATHS_D)


# The paper's eleven networks, with their register and path counts.
PAPER = {
    "A": (variant_a(), 3, 3),
    "A2": (variant_a(floor=9), 3, 3),
    "A3": (variant_a(floor=20), 3, 3),
    "A4": (variant_a(ceiling=8), 3, 3),
    "A5": (variant_a(ceiling=9), 3, 3),
    "A6": (variant_a(u=1), 3, 3),
    "A7": (variant_a(u=2), 3, 3),
    "B": (text("register setup 0 hold 1 low 0 high 0", "path 0 0 0 5"), 1, 1),
    "D": (variant_d(-10, 10), 2, 2),
    "E": (variant_d(0, 1), 2, 2),
    "F": (text("register setup 0 hold 0 low 0 high 0"), 1, 0),
}


def run(script, *words, data=b""):
    return subprocess.run([sys.executable, str(HERE / script), *words], input=data, capture_output=True, check=False)


class ThereAndBack(unittest.TestCase):
    def test_the_papers_networks(self):
        self.assertEqual(len(PAPER), 11)
        for name, (lines, n, m) in PAPER.items():
            with self.subTest(name):
                data = network.make(lines)
                self.assertEqual(len(data), 22 + 18 * (n + m))
                self.assertEqual(network.show(data), lines)
                self.assertEqual(network.make(network.show(data)), data)

    def test_network_a_is_130_bytes(self):
        data = network.make(PAPER["A"][0])
        self.assertEqual(len(data), 130)
        header = "4e57" "03000000" "03000000" "01000000" "64000000" "00000000"
        self.assertEqual(data[:22].hex(), header)
        self.assertEqual(data[40:58].hex(), "5247" "01000000" "01000000" "f6ffffff" "0a000000")
        self.assertEqual(data[76:94].hex(), "5054" "00000000" "01000000" "02000000" "09000000")

    def test_comments_blanks_and_empty_lines_do_not_count(self):
        loose = "# first\n\n" + PAPER["D"][0].replace("path 0", "  path\t0 ").replace("10 high", "10   high") + "# last"
        self.assertEqual(network.make(loose), network.make(PAPER["D"][0]))
        self.assertEqual(network.make("network floor 1 ceiling 2 u 3 # all\n"), network.make("network floor 1 ceiling 2 u 3"))

    def test_fields_out_of_range_are_not_refused(self):
        faulty = text("register setup 2147483647 hold -2147483648 low 5 high -5", "path -1 99 7 3", floor=-4, ceiling=-9, u=-1)
        self.assertEqual(network.show(network.make(faulty)), faulty)
        self.assertEqual(network.make(text())[2:10], bytes(8))


class Malformed(unittest.TestCase):
    def test_lines(self):
        start = "network floor 1 ceiling 2 u 3\n"
        faults = {
            "": "no network line",
            "net floor 1 ceiling 2 u 3": "line 1: 'net' is none of",
            "network floor 1 ceiling 2": "line 1: 'network floor 1 ceiling 2' is not of the form 'network floor FLOOR ceiling CEILING u U'",
            "network floor 1 ceiling 2 v 3": "line 1: 'network floor 1 ceiling 2 v 3' is not of the form",
            "network floor 1 ceiling 2 u x": "line 1: u: 'x' is no number",
            "network floor 1_0 ceiling 2 u 3": "line 1: floor: '1_0' is no number",
            "network floor 2147483648 ceiling 2 u 3": "line 1: network: floor is 2147483648 ps, and must be from 1 to 10000000",
            "path 0 0 0 0": "line 1: a path line before the network line",
            start + start: "line 2: a second network line",
            start + "\n# x\npath 0 0 0": "line 4: 'path 0 0 0' is not of the form 'path FROM TO DMIN DMAX'",
            start + "path 0 x 0 0": "line 2: to: 'x' is no number, and a register's number is due",
            start + "path 0 0.5 0 0": "line 2: to: '0.5' is no whole number, and a register's number is due",
            start + "path 0 0 0 0\nregister setup 0 hold 0 low 0 high 0": "line 3: a register line after a path line",
        }
        for lines, words in faults.items():
            with self.subTest(lines):
                with self.assertRaises(network.Malformed) as caught:
                    network.make(lines)
                self.assertIn(words, str(caught.exception))

    def test_every_fault_is_told(self):
        with self.assertRaises(network.Malformed) as caught:
            network.make("network floor 0 ceiling 2 u x\nregister setup y hold 0 low 0 high 0\n")
        self.assertEqual(str(caught.exception).count("line 1"), 2)
        self.assertIn("line 2: setup: 'y' is no number", str(caught.exception))

    def test_files(self):
        sound = network.make(PAPER["A"][0])
        for data in [b"", sound[:21], b"XX" + sound[2:], sound[:-1], sound + b"\0", sound[:2] + b"\xff\xff\xff\xff" + sound[6:]]:
            with self.subTest(data):
                self.assertRaises(NoNetwork, network.show, data)


def arrows(data, period):
    """The rules of a sound network file as (tail, head, amount)."""
    _, n, m, _, _, u = network.HEADER.unpack_from(data)
    records = [network.RECORD.unpack_from(data, 22 + 18 * i)[1:] for i in range(n + m)]
    registers, paths = records[:n], records[n:]
    result = []
    for source, sink, dmin, dmax in paths:
        result.append((source, sink, dmax + registers[sink][0] + u - period))
        charge = 0 if source == sink else u
        result.append((sink, source, registers[sink][1] + charge - dmin))
    for i, (_, _, low, high) in enumerate(registers[1:], start=1):
        result += [(0, i, low), (i, 0, -high)]
    return n, result


def has_schedule(data, period):
    n, rules = arrows(data, period)
    latency = n * [0]
    for _ in range(n + 1):
        raised = False
        for tail, head, amount in rules:
            if latency[tail] + amount > latency[head]:
                latency[head] = latency[tail] + amount
                raised = True
        if not raised:
            return True
    return False


class Examples(unittest.TestCase):
    def test_texts_and_files_belong_together(self):
        with tempfile.TemporaryDirectory() as folder:
            self.assertEqual(run("examples.py", folder).returncode, 0)
            names = sorted(path.name for path in Path(folder).iterdir())
            stems = ("a", "counter", "d", "pipeline")
            self.assertEqual(names, [f"{stem}.{kind}" for stem in stems for kind in ("net", "txt")])
            for name in stems:
                lines = (Path(folder) / f"{name}.txt").read_text()
                data = (Path(folder) / f"{name}.net").read_bytes()
                bare = "".join(line + "\n" for line in lines.splitlines() if not line.startswith("#"))
                self.assertEqual((network.make(lines), network.show(data)), (data, bare))
        self.assertEqual(network.make(examples.NETWORK_A), network.make(PAPER["A"][0]))
        self.assertEqual(network.make(examples.NETWORK_D), network.make(PAPER["D"][0]))

    def test_wrong_words_are_told(self):
        for words in ([], ["real"], ["a", "b"]):
            self.assertEqual(run("examples.py", *words).returncode, 2)

    def test_the_pipeline_is_answered_above_its_floor(self):
        data = network.make(examples.pipeline())
        _, n, m, floor, ceiling, _ = network.HEADER.unpack_from(data)
        self.assertEqual((n, m), (40, 120))
        self.assertFalse(has_schedule(data, floor))
        self.assertTrue(has_schedule(data, ceiling))
        self.assertEqual(examples.pipeline(), examples.pipeline())

    def test_schedules_of_the_small_ones(self):
        for lines, period in ((examples.NETWORK_A, 9), (examples.NETWORK_D, 8), (examples.COUNTER, 15)):
            data = network.make(lines)
            self.assertEqual((has_schedule(data, period - 1), has_schedule(data, period)), (False, True))


if __name__ == "__main__":
    unittest.main()
