#!/usr/bin/env python3
"""Tests of the networks of real circuits in examples/real: python3 test_real.py

Each network file is made from its text and listed by the proved program; the listing must be the stored one.
"""

import subprocess
import tempfile
import unittest
from pathlib import Path

import examples
import network

RUN = Path(__file__).resolve().parent / "run"
CIRCUITS = ["caprng", "dds", "desround", "fifo", "framer", "mxuart", "pcpimul", "rs232send"]
SETTINGS = [10, 30]


def records(data):
    _, n, m, _, _, u = network.HEADER.unpack_from(data)
    every = [network.RECORD.unpack_from(data, 22 + 18 * i)[1:] for i in range(n + m)]
    return u, every[:n], every[n:]


def without_skew(data):
    """The least period at which every setup rule is met with all latencies 0."""
    u, registers, paths = records(data)
    return max(dmax + registers[sink][0] + u for _, sink, _, dmax in paths)


def stored(name):
    return (examples.REAL / f"{name}.list").read_text()


def table():
    """The rows of the table in the folder's README, as numbers by circuit."""
    rows = {}
    for line in (examples.REAL / "README.md").read_text().splitlines():
        cells = [cell.strip() for cell in line.strip("|").split("|")]
        if cells[0].strip("`") in CIRCUITS:
            rows[cells[0].strip("`")] = [int(cell.replace(",", "")) for cell in cells[-5:]]
    return rows


class RealCircuits(unittest.TestCase):
    @classmethod
    def setUpClass(cls):
        cls.files = {name: network.make(text) for name, text in examples.real_texts().items()}

    def test_the_listings_are_the_stored_ones(self):
        for name, data in self.files.items():
            with self.subTest(name):
                listed = subprocess.run([str(RUN), "skewlist"], input=data, capture_output=True, check=True)
                self.assertEqual(listed.stdout.decode(), stored(name))

    def test_every_circuit_is_there_at_both_settings(self):
        self.assertEqual(list(self.files), [f"{name}-{percent}" for name in CIRCUITS for percent in SETTINGS])
        with tempfile.TemporaryDirectory() as folder:
            examples.write_real(folder)
            written = {path.stem: path.read_bytes() for path in Path(folder).glob("*.net")}
        self.assertEqual(written, self.files)

    def test_the_settings_differ_in_the_windows_alone(self):
        for name in CIRCUITS:
            bare = []
            for percent in SETTINGS:
                data = self.files[f"{name}-{percent}"]
                u, registers, paths = records(data)
                window = without_skew(data) * percent // 100
                self.assertEqual({tuple(register[2:]) for register in registers[1:]}, {(-window, window)}, name)
                bare.append((u, [register[:2] for register in registers], paths))
            self.assertEqual(bare[0], bare[1], name)

    def test_every_register_but_the_host_has_a_name(self):
        for name in CIRCUITS:
            names = (examples.REAL / f"{name}.names").read_text().split()
            _, registers, _ = records(self.files[f"{name}-10"])
            self.assertEqual((len(names), len(set(names))), (len(registers) - 1, len(registers) - 1), name)

    def test_the_readmes_table(self):
        rows = table()
        self.assertEqual(sorted(rows), CIRCUITS)
        for name in CIRCUITS:
            data = self.files[f"{name}-10"]
            _, registers, paths = records(data)
            periods = [int(stored(f"{name}-{percent}").split()[1]) for percent in SETTINGS]
            self.assertEqual(rows[name], [len(registers), len(paths), without_skew(data), *periods], name)


if __name__ == "__main__":
    unittest.main()
