"""Times as people write them, and whole picoseconds. Nothing here is a float: what is written is read exactly."""

import re
from fractions import Fraction

UNITS = {"ps": 1, "ns": 1000}
NUMBER = re.compile(r"[+-]?([0-9]+(\.[0-9]*)?|\.[0-9]+)([eE][+-]?[0-9]{1,2})?")
LONGEST = 60  # digits and marks of a number; it keeps a slip of the keyboard from becoming a number of a million digits


class NoTime(ValueError):
    """A word that is no number."""


def looks_like(word):
    """Whether a word would be read as a number."""
    return NUMBER.fullmatch(word) is not None


def exact(word):
    """The number that a word stands for."""
    if looks_like(word.replace(",", ".")) and "," in word:
        raise NoTime(f"'{word}' is no number: write a decimal point")
    if not looks_like(word):
        raise NoTime(f"'{word}' is no number")
    if len(word) > LONGEST:
        raise NoTime(f"a number of {len(word)} characters is too long")
    return Fraction(word)


def whole(word):
    """The whole number that a word stands for."""
    value = exact(word)
    if value.denominator != 1:
        raise NoTime(f"'{word}' is no whole number")
    return value.numerator


def picoseconds(word, unit, up):
    """Whole picoseconds, and whether they were rounded: up, or else down."""
    value = exact(word) * UNITS[unit]
    below = value.numerator // value.denominator
    rounded = value != below
    return below + (1 if rounded and up else 0), rounded


def exactly(word, unit, span):
    """Whole picoseconds in a range. Of a period or a latency that is asked about no side is the safe one, so nothing is rounded."""
    time, rounded = picoseconds(word, unit, up=False)
    if rounded or not span[0] <= time <= span[1]:
        ends = f"{show(span[0], unit)} to {show(span[1], unit)} {unit}"
        raise NoTime(f"{word} {unit} is no whole number of picoseconds from {ends}")
    return time


def show(time, unit="ps"):
    """Whole picoseconds as a number of the unit, exactly."""
    if unit == "ps":
        return str(time)
    sign = "-" if time < 0 else ""
    whole, rest = divmod(abs(time), UNITS[unit])
    return f"{sign}{whole}.{rest:03d}"


def with_unit(time, unit="ps"):
    return f"{show(time, unit)} {unit}"
