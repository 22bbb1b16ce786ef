"""A network and the bytes of its file: RULES, sections 1 and 5."""

import struct
from dataclasses import dataclass, field
from typing import NamedTuple

HEADER = struct.Struct("<2s5i")
RECORD = struct.Struct("<2s4i")
MARKS = {"header": b"NW", "register": b"RG", "path": b"PT"}
LONGEST_FILE = 41494


class Register(NamedTuple):
    setup: int
    hold: int
    low: int
    high: int


class Path(NamedTuple):
    source: int
    sink: int
    dmin: int
    dmax: int


@dataclass
class Network:
    """Register 0 is the host. All times are whole picoseconds. Nothing is checked here: `faults` tells what the module would refuse."""

    floor: int
    ceiling: int
    u: int
    registers: list = field(default_factory=list)
    paths: list = field(default_factory=list)
    names: list = None

    def name(self, register):
        """The register's name; where none was given, `host` and `r1`, `r2`, .. stand for it."""
        if self.names and 0 <= register < len(self.names) and self.names[register]:
            return self.names[register]
        return f"r{register}" if register else "host"

    def to_bytes(self):
        """The network file. A number that does not fit four bytes cannot stand in one: struct.error."""
        header = HEADER.pack(MARKS["header"], len(self.registers), len(self.paths), self.floor, self.ceiling, self.u)
        registers = [RECORD.pack(MARKS["register"], *register) for register in self.registers]
        return b"".join([header, *registers, *(RECORD.pack(MARKS["path"], *path) for path in self.paths)])

    def at_period(self, period):
        """The same network with this period and no other."""
        return Network(period, period, self.u, self.registers, self.paths, self.names)


class NoNetwork(ValueError):
    """Bytes whose records cannot be told apart."""


def from_bytes(data):
    """The network that a file's numbers mean, whatever their ranges and the marks of registers and paths are."""
    if len(data) < HEADER.size or data[:2] != MARKS["header"]:
        raise NoNetwork("no header")
    _, n, m, floor, ceiling, u = HEADER.unpack_from(data)
    if n < 0 or m < 0 or len(data) != HEADER.size + RECORD.size * (n + m):
        raise NoNetwork("the length does not fit the counts")
    every = [numbers for _, *numbers in RECORD.iter_unpack(data[HEADER.size:])]
    return Network(floor, ceiling, u, [Register(*numbers) for numbers in every[:n]], [Path(*numbers) for numbers in every[n:]])
