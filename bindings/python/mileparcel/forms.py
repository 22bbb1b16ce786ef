"""A network in any of its three forms, told apart by content."""

import codecs
import struct
from dataclasses import dataclass, field

from . import faults as judging
from . import network as files
from . import table, text

TEXT = {*range(32, 256), *b"\t\n\f\r"}  # the bytes of texts, in UTF-8 and in older encodings


@dataclass
class Source:
    """What was read. `data` is the network file to ask about, None where it cannot be made. `faults` are all there are."""

    form: str
    unit: str = "ps"
    data: bytes = None
    network: files.Network = None
    faults: list = field(default_factory=list)
    rounded: int = 0
    lines: dict = field(default_factory=dict)  # of each record, where it was read from lines

    @property
    def refusal(self):
        """The number and place that the faults come to (RULES 6.3); None where there is none, or where no file can be made of it."""
        if not self.faults or self.data is None:
            return None
        return min((fault.number, fault.place) for fault in self.faults)


def told_apart(data):
    """A network file begins with its mark, or has bytes that no text has. Of the others, a row of titles begins a CSV and the word of a record
    begins a text; where neither is there, one whose first line has cells is taken for a CSV, so that its faults are told as such."""
    if data[:2] == files.MARKS["header"] or not data or not TEXT.issuperset(data):
        return "file"
    line = next(filter(table.meaningful, decoded(data).split("\n")), "")
    if any(table.title_row(cells) for _, cells in table.rows(line, lambda *_: None)):
        return "csv"
    return "csv" if table.delimiter(line) in line and line.split()[0] not in text.FORMS else "text"


def decoded(data):
    """The text, with one sign at the end of each line. Other encodings than UTF-8 can only matter in comments and names, so no byte is
    refused for them; Latin-1 has a letter for each byte, so that names that differ stay different."""
    data = data.removeprefix(codecs.BOM_UTF8)
    try:
        lines = data.decode()
    except UnicodeDecodeError:
        lines = data.decode("latin-1")
    return lines.replace("\r\n", "\n").replace("\r", "\n")


def read(data, form=None, unit="ps", given=None, names=None):
    """The source that some bytes are. `names` are those of all registers, for a form that has none itself."""
    form = form or told_apart(data)
    if form == "file":
        return of_file(data, names, unit)
    reading, made = table.read(decoded(data), unit, given) if form == "csv" else text.read(decoded(data), unit)
    if made and not made.names:
        made.names = names
    found = reading.faults + (judging.of_network(made, reading.lines, unit) if made else [])
    if reading.faults:
        found.sort(key=lambda fault: fault.line or 0)
    return Source(form, unit, packed(made) if made and not reading.faults else None, made, found, reading.rounded, reading.lines)


def of_file(data, names, unit):
    try:
        made = files.from_bytes(data)
        made.names = names
    except files.NoNetwork:
        made = None
    return Source("file", unit, data, made, judging.of_file(data, names, unit))


def packed(made):
    """The file of a network; None where a number does not fit, which is then told as a fault of its range."""
    try:
        return made.to_bytes()
    except struct.error:
        return None


def write(made, form):
    """The bytes of a network in a form."""
    if form == "file":
        return made.to_bytes()
    return (table if form == "csv" else text).write(made).encode()


def read_names(data, registers):
    """The names of a file with one name to a line: of all registers, where the first line is `host`, else of all but the host. So a line
    that was lost is told, and shifts no name."""
    lines = decoded(data).rstrip("\n")
    names = [line.strip() for line in lines.split("\n")] if lines else []
    if names[:1] != [table.HOST]:
        names.insert(0, table.HOST)
    if len(names) != registers:
        raise ValueError(f"{len(names) - 1} names beside the host's, where {registers - 1} are due: one to a line, for each register but the host")
    others = set()
    for i, name in enumerate(names):
        if fault := table.misnamed(name, i, others):
            raise ValueError(fault)
        others.add(name)
    return names
