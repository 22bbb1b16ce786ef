"""What texts and tables share: the numbers of each record, which way they are rounded, and how a reading gathers its faults."""

from . import times
from .faults import Fault

NUMBERS = {
    "network": ("floor", "ceiling", "u"),
    "register": ("setup", "hold", "low", "high"),
    "path": ("from", "to", "dmin", "dmax"),
}
# Rounded to the side on which no rule becomes easier to meet: these up, all other times down.
UP = {"floor", "u", "setup", "hold", "low", "dmax"}

LONGEST = 400  # letters of a message


def printable(words):
    """As a line for people: cut off where it is very long, and without what a terminal would take for a command."""
    short = words if len(words) <= LONGEST else f"{words[:LONGEST]}.."
    return "".join(letter if letter.isprintable() else "\N{REPLACEMENT CHARACTER}" for letter in short)


class Reading:
    """The faults so far and the fields that they are of, the line of each record, and how many times were rounded."""

    def __init__(self, unit):
        self.unit, self.rounded, self.faults, self.lines, self.fields = unit, 0, [], {}, set()

    def fault(self, line, words, field=None, value=None):
        self.faults.append(Fault(printable(words), field=field, value=value, line=line))
        self.fields.add(field)

    def time(self, line, title, word):
        """The time that a word stands for; None for one that is told as a fault."""
        try:
            value, rounded = times.picoseconds(word, self.unit, title in UP)
        except times.NoTime as no:
            self.fault(line, f"{title}: {no}" if word else f"{title} is missing", title, word)
            return None
        self.rounded += rounded
        return value
