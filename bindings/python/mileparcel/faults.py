"""Every fault of a network in words: what RULES 6.2 refuses with 1 to 6, field by field. The module tells the lowest; these are all."""

from dataclasses import dataclass

from . import network as form
from .times import show, with_unit

COUNTS = {"registers": (1, 256), "paths": (0, 2048)}
PERIOD = (1, 10_000_000)
UNCERTAINTY = (0, 10_000)
MARGIN = (-100_000, 100_000)
LATENCY = (-1_000_000, 1_000_000)
DELAY = (0, 1_000_000)


@dataclass(frozen=True)
class Fault:
    """`number` and `place` are those of RULES 6.2; a fault of the text or table itself has none, for it never became a file."""

    words: str
    number: int = None
    place: int = 0
    record: str = None
    field: str = None
    value: object = None
    least: int = None
    greatest: int = None
    line: int = None

    def told(self):
        return f"line {self.line}: {self.words}" if self.line else self.words


class Judge:
    """Gathers the faults of one network. A number that could not be read is None, and was told already."""

    def __init__(self, network, lines, unit):
        self.network, self.lines, self.unit, self.found = network, lines, unit, []

    def counts(self, registers, paths):
        for name, count in (("registers", registers), ("paths", paths)):
            self.range(2, 0, "header", name, count, *COUNTS[name], f"the network has {count} {name}, and must have")

    def header(self):
        floor = self.network.floor
        self.time(4, 0, "header", "floor", floor, *PERIOD)
        self.time(4, 0, "header", "ceiling", self.network.ceiling, *above(floor, PERIOD), beside=("floor", floor))
        self.time(4, 0, "header", "u", self.network.u, *UNCERTAINTY)

    def records(self):
        for i, register in enumerate(self.network.registers):
            self.register(i, register)
        for p, path in enumerate(self.network.paths):
            self.path(p, path)

    def register(self, i, register):
        self.time(5, i, "register", "setup", register.setup, *MARGIN)
        self.time(5, i, "register", "hold", register.hold, *MARGIN)
        if i == 0:
            self.time(5, i, "register", "low", register.low, 0, 0)
            self.time(5, i, "register", "high", register.high, 0, 0)
            return
        self.time(5, i, "register", "low", register.low, *LATENCY)
        self.time(5, i, "register", "high", register.high, *above(register.low, LATENCY), beside=("low", register.low))

    def path(self, p, path):
        last = len(self.network.registers) - 1
        for name, end in (("from", path.source), ("to", path.sink)) if last >= 0 else ():
            self.range(6, p, "path", name, end, 0, last, f"{self.title('path', p)}: {name} is register {end}, and must be")
        self.time(6, p, "path", "dmin", path.dmin, *below(path.dmax, DELAY), beside=("dmax", path.dmax))
        # A dmax below dmin is told of dmin, and not once more here.
        span = DELAY if within(path.dmax, DELAY) else above(path.dmin, DELAY)
        self.time(6, p, "path", "dmax", path.dmax, *span, beside=("dmin", path.dmin))

    def time(self, number, place, record, name, value, least, greatest, beside=None):
        if value is not None:
            note = f"{self.title(record, place)}: {name} is {with_unit(value, self.unit)}, and must be"
            self.range(number, place, record, name, value, least, greatest, note, beside, lambda time: show(time, self.unit))

    def range(self, number, place, record, name, value, least, greatest, note, beside=None, text=str):
        if value is None or least <= value <= greatest:
            return
        span = text(least) if least == greatest else f"from {text(least)} to {text(greatest)}"
        if beside and beside[1] in (least, greatest):
            span += f" ({beside[0]} is {text(beside[1])})"
        line = self.lines.get((record, place))
        self.found.append(Fault(f"{note} {span}", number, place, record, name, value, least, greatest, line))

    def title(self, record, place):
        """How people know a record: by its number and by the names at hand."""
        if record == "header":
            return "network"
        if record == "register":
            named = f"register {place}" + (f" ({self.network.name(place)})" if self.network.names else "")
            return f"{named}, the host" if place == 0 else named
        path, n = self.network.paths[place], len(self.network.registers)
        if not all(end is not None and 0 <= end < n for end in (path.source, path.sink)):
            return f"path {place}"
        return f"path {place} ({self.network.name(path.source)} to {self.network.name(path.sink)})"


def above(other, span):
    """The range of a field that must not lie below another: where that one is at fault itself, it is not held against this one too."""
    return (other, span[1]) if within(other, span) else span


def below(other, span):
    return (span[0], other) if within(other, span) else span


def within(value, span):
    return value is not None and span[0] <= value <= span[1]


def of_network(network, lines=None, unit="ps"):
    """The faults of a network in the order of RULES 6.2, so that the first is the one that the module tells."""
    judge = Judge(network, lines or {}, unit)
    judge.counts(len(network.registers), len(network.paths))
    judge.header()
    judge.records()
    return judge.found


def of_file(data, names=None, unit="ps"):
    """The faults of a network file. Where its records cannot be told apart, only its header is looked at."""
    if len(data) < form.HEADER.size:
        words = f"the file has {len(data)} bytes, and a header has {form.HEADER.size}"
        return [Fault(words, 1, record="header", field="length", value=len(data))]
    mark = spelled(data[:2])
    if data[:2] != form.MARKS["header"]:
        return [Fault(f"the file begins with {mark}, and must begin with NW", 1, record="header", field="mark", value=mark)]
    try:
        network = form.from_bytes(data)
    except form.NoNetwork:
        return of_header(data, unit)
    network.names = names
    return sorted(of_network(network, unit=unit) + marks(data, network), key=lambda fault: (fault.number, fault.place))


def of_header(data, unit):
    """The faults of a file whose length does not fit its counts."""
    _, n, m, *ranged = form.HEADER.unpack_from(data)
    judge = Judge(form.Network(*ranged), {}, unit)
    judge.counts(n, m)
    if not judge.found:
        due = form.HEADER.size + form.RECORD.size * (n + m)
        words = f"the file has {len(data)} bytes, and must have {due} for {n} registers and {m} paths"
        judge.found.append(Fault(words, 3, 0, "header", "length", len(data), due, due))
    judge.header()
    return judge.found


def marks(data, network):
    found = []
    n = len(network.registers)
    for i, (mark, *_) in enumerate(form.RECORD.iter_unpack(data[form.HEADER.size:])):
        record, number, place = ("register", 5, i) if i < n else ("path", 6, i - n)
        if mark != form.MARKS[record]:
            words = f"{record} {place}: the record begins with {spelled(mark)}, and must begin with {form.MARKS[record].decode()}"
            found.append(Fault(words, number, place, record, "mark", spelled(mark)))
    return found


def spelled(mark):
    """Two bytes as letters where they are letters, else as numbers."""
    if all(32 < byte < 127 for byte in mark):
        return mark.decode()
    return "bytes " + " ".join(str(byte) for byte in mark)
