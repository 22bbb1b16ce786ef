"""The ranges of a network's numbers, read from the table of docs/RULES.md 5.6, so that the tests hold the code to the page."""

from typing import NamedTuple

from support import ROOT

NUMBER = {"header": 4, "register": 5, "path": 6}  # RULES 6.2; n and m are number 2


class Range(NamedTuple):
    """The ends as the page has them: numbers, or the names of other fields, or `n - 1`."""

    least: str
    greatest: str
    other: str = None  # the field that this one must not lie below
    host: int = None  # the one value that register 0 may have

    def ends(self, numbers, place=None):
        """Both ends beside the other numbers. A number that is at fault itself is None there; it is not held against this one."""
        if place == 0 and self.host is not None:
            return self.host, self.host
        least, greatest = (end(side, getattr(self, side), numbers) for side in ("least", "greatest"))
        beside = numbers.get(self.other)
        return (least if beside is None else max(least, beside)), greatest


def end(side, word, numbers):
    """What an end comes to. For a field that is at fault its own end on the same side stands."""
    name, _, less = word.partition(" - ")
    if name not in NAMED:
        return int(word.replace(",", ""))
    if numbers.get(name) is None:
        return end(side, getattr(RANGES[NAMED[name], name], side), numbers)
    return numbers[name] - int(less or 0)


def read():
    """The table's rows, by record and field."""
    page = (ROOT / "docs" / "RULES.md").read_text()
    found, record = {}, None
    for line in page[page.index("**5.6**"):page.index("**5.7**")].splitlines():
        cells = [cell.strip() for cell in line.strip("|").split("|")]
        if len(cells) == 5 and cells[3].isdecimal():
            record = cells[0].split()[0] if cells[0] else record
            found[record, cells[2]] = ranged(cells[4])
    return found


def ranged(words):
    words, _, host = words.partition("; for register 0 only ")
    words, _, other = words.partition(" and not below ")
    least, greatest = words.split(" to ")
    return Range(least, greatest, other or None, int(host) if host else None)


RANGES = read()
NAMED = {field: record for record, field in RANGES}
FIELDS = {record: [field for of, field in RANGES if of == record] for record in NUMBER}
