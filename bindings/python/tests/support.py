"""What the tests share: the front end run in this process, with one proved program for all calls, and a reading of network files of their own.

What is said here of rules and files follows docs/RULES.md alone, and uses nothing of the module that is tested."""

import atexit
import contextlib
import functools
import io
import json
import struct
import sys
import tempfile
import unittest
from pathlib import Path
from typing import NamedTuple

ROOT = Path(__file__).resolve().parents[3]
sys.dont_write_bytecode = True
sys.path.insert(0, str(ROOT / "bindings" / "python"))

from mileparcel import cli  # noqa: E402  the path comes first
from mileparcel.proved import Proved  # noqa: E402

PROVED = Proved()
atexit.register(PROVED.__exit__)
cli.parser = functools.lru_cache(maxsize=None)(cli.parser)  # else most of a call's time would go into making it anew

KINDS = ("setup", "hold", "low", "high")


class Ran(NamedTuple):
    """What one call left: its exit status, standard output and standard error."""

    status: int
    out: bytes
    err: str

    @property
    def text(self):
        return self.out.decode()

    @property
    def json(self):
        return json.loads(self.out)


def run(*words, data=b"", proved=PROVED):
    """The front end in this process; `data` is its standard input."""
    out, said, heard = io.BytesIO(), [], io.StringIO()
    with contextlib.redirect_stderr(heard), contextlib.redirect_stdout(heard):
        try:
            status = cli.run([str(word) for word in words], lambda: data, out.write, said.append, proved)
        except SystemExit as stop:
            status = stop.code
    return Ran(status, out.getvalue(), heard.getvalue() + "".join(f"{line}\n" for line in said))


class File(NamedTuple):
    """A network file as RULES 5.2 to 5.4 has it: n and m are what stands in the header."""

    n: int
    m: int
    floor: int
    ceiling: int
    u: int
    registers: list  # setup, hold, low, high
    paths: list  # from, to, dmin, dmax

    def bytes(self):
        header = b"NW" + struct.pack("<5i", self.n, self.m, self.floor, self.ceiling, self.u)
        registers = [b"RG" + struct.pack("<4i", *register) for register in self.registers]
        return b"".join([header, *registers, *(b"PT" + struct.pack("<4i", *path) for path in self.paths)])

    def text(self):
        lines = [f"network floor {self.floor} ceiling {self.ceiling} u {self.u}"]
        lines += ["register setup {} hold {} low {} high {}".format(*register) for register in self.registers]
        return "\n".join([*lines, *("path {} {} {} {}".format(*path) for path in self.paths)]).encode()

    def csv(self):
        """Every register is called by the letter n and its number."""
        lines = ["floor,ceiling,u", f"{self.floor},{self.ceiling},{self.u}", "register,setup,hold,low,high"]
        lines += ["n{},{},{},{},{}".format(i, *register) for i, register in enumerate(self.registers)]
        return "\n".join([*lines, "from,to,dmin,dmax", *("n{},n{},{},{}".format(*path) for path in self.paths)]).encode()

    def rules(self):
        """Every rule of the network by kind and number (RULES 2.5)."""
        paths = [(kind, p) for p in range(self.m) for kind in ("setup", "hold")]
        return paths + [(kind, i) for i in range(1, self.n) for kind in ("low", "high")]

    def arrow(self, kind, number):
        """The tail and the head of a rule's arrow, and its amount without the period's term (RULES 2.2)."""
        if kind == "low":
            return 0, number, self.registers[number][2]
        if kind == "high":
            return number, 0, -self.registers[number][3]
        source, sink, dmin, dmax = self.paths[number]
        setup, hold, _, _ = self.registers[sink]
        if kind == "setup":
            return source, sink, dmax + setup + self.u
        return sink, source, hold + (0 if source == sink else self.u) - dmin

    def slack(self, kind, number, period, latencies):
        """How far the latency at the head is above what the arrow asks of it (RULES 2.3, 15.2)."""
        tail, head, amount = self.arrow(kind, number)
        return latencies[head] - latencies[tail] - amount + (period if kind == "setup" else 0)


def parsed(data):
    """A network file that is long enough for its counts, read with nothing of the module."""
    n, m, floor, ceiling, u = struct.unpack_from("<5i", data, 2)
    records = [struct.unpack_from("<4i", data, 22 + 18 * i + 2) for i in range(n + m)]
    return File(n, m, floor, ceiling, u, records[:n], records[n:])


def network(registers, paths, floor=1, ceiling=100, u=0):
    return File(len(registers), len(paths), floor, ceiling, u, registers, paths)


# The paper's networks (RULES 11.1, 11.3 and 11.5). A4 is refused with 9 and A7 with 8.
A = network([(1, 1, 0, 0), (1, 1, -10, 10), (1, 1, -10, 10)], [(0, 1, 2, 9), (1, 2, 2, 3), (2, 0, 2, 6)])
A4 = A._replace(ceiling=8)
A7 = A._replace(u=2)
D = network([(0, 0, 0, 0), (0, 0, -10, 10)], [(0, 1, 5, 10), (1, 0, 5, 5)])
NAMED = A.csv().decode().replace("n0", "ports").replace("n1", "u_a/ff[0]").replace("n2", "the b").encode()

class Folder(unittest.TestCase):
    """Tests with a folder of their own."""

    def setUp(self):
        holder = tempfile.TemporaryDirectory()
        self.addCleanup(holder.cleanup)
        self.folder = Path(holder.name)

    def file(self, name, content):
        path = self.folder / name
        path.write_bytes(content if isinstance(content, bytes) else content.encode())
        return path


__all__ = ["A", "A4", "A7", "D", "File", "Folder", "KINDS", "NAMED", "PROVED", "Proved", "ROOT", "Ran", "network", "parsed", "run"]
