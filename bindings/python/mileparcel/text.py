"""A network as text, one line to a record:

    network floor FLOOR ceiling CEILING u U
    register setup SETUP hold HOLD low LOW high HIGH
    path FROM TO DMIN DMAX

First the network line, then the register lines, register 0 first, then the path lines, path 0 first. The counts are the counts of
lines. What follows a '#' is a comment; empty lines are skipped."""

from . import times
from .network import Network, Path, Register
from .reading import NUMBERS, Reading

ORDER = list(NUMBERS)
FORMS = {word: word for word in ORDER}
FORMS["network"] += " floor FLOOR ceiling CEILING u U"
FORMS["register"] += " setup SETUP hold HOLD low LOW high HIGH"
FORMS["path"] += " FROM TO DMIN DMAX"


class Text(Reading):
    def __init__(self, unit):
        super().__init__(unit)
        self.records = {word: [] for word in ORDER}
        self.last = "network"

    def line(self, count, words):
        sort = words[0]
        if not self.placed(count, sort):
            return
        due = FORMS[sort].split()
        if len(words) != len(due) or any(part.islower() and part != word for part, word in zip(due, words)):
            self.fault(count, f"'{' '.join(words)}' is not of the form '{FORMS[sort]}'")
            self.put(count, sort, [None] * len(NUMBERS[sort]))
            return
        numbers = [word for part, word in zip(due, words) if part.isupper()]
        self.put(count, sort, [self.number(count, title, word) for title, word in zip(NUMBERS[sort], numbers)])

    def put(self, count, sort, numbers):
        """A record. One that could not be read counts too, so that those after it keep their numbers."""
        self.last = sort
        self.lines["header" if sort == "network" else sort, len(self.records[sort])] = count
        self.records[sort].append(numbers)

    def placed(self, count, word):
        """Whether a line of this sort may stand here."""
        if word not in NUMBERS:
            self.fault(count, f"'{word}' is none of {', '.join(ORDER)}")
        elif word == "network" and self.records["network"]:
            self.fault(count, "a second network line")
        elif word != "network" and not self.records["network"]:
            self.fault(count, f"a {word} line before the network line")
        elif ORDER.index(word) < ORDER.index(self.last):
            self.fault(count, f"a {word} line after a {self.last} line")
        else:
            return True
        return False

    def number(self, count, title, word):
        if title not in ("from", "to"):
            return self.time(count, title, word)
        try:
            return times.whole(word)
        except times.NoTime as no:
            self.fault(count, f"{title}: {no}, and a register's number is due", title, word)
            return None

    def network(self):
        if not self.records["network"]:
            if not self.faults:
                self.fault(None, "the text has no network line")
            return None
        registers = [Register(*numbers) for numbers in self.records["register"]]
        return Network(*self.records["network"][0], registers, [Path(*numbers) for numbers in self.records["path"]])


def read(text, unit="ps"):
    """The reading, and the network that it gives."""
    reading = Text(unit)
    for count, line in enumerate(text.split("\n"), start=1):
        words = line.split("#", 1)[0].split()
        if words:
            reading.line(count, words)
    return reading, reading.network()


def write(network):
    lines = [f"network floor {network.floor} ceiling {network.ceiling} u {network.u}"]
    lines += [f"register setup {r.setup} hold {r.hold} low {r.low} high {r.high}" for r in network.registers]
    lines += [f"path {p.source} {p.sink} {p.dmin} {p.dmax}" for p in network.paths]
    return "\n".join(lines) + "\n"
