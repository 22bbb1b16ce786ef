"""The numbers that the module returns, in words: RULES 6.2."""

from typing import NamedTuple

from .faults import COUNTS, DELAY, LATENCY, MARGIN, PERIOD, UNCERTAINTY


class Meaning(NamedTuple):
    short: str
    place: str
    advice: str


def span(ends):
    return f"{ends[0]} to {ends[1]}"


NUMBERS = {
    0: Meaning("answered", "none",
               "No shorter whole period from the floor up has a schedule, and at this one no register has a smaller latency in any."),
    1: Meaning("the file is no network file: under 22 bytes, or it does not begin with NW", "none",
               "Give a network file, or text or CSV of the forms in docs/USING.md."),
    2: Meaning(f"the number of registers or of paths is out of range: {span(COUNTS['registers'])} registers, {span(COUNTS['paths'])} paths", "none",
               "docs/USING.md says what to do with a larger design."),
    3: Meaning("the file's length does not fit its counts: 22 + 18 (registers + paths) bytes are due", "none",
               "The file was cut off, or something follows its last record."),
    4: Meaning(f"floor, ceiling or u is out of range: floor and ceiling {span(PERIOD)} ps, floor <= ceiling, u {span(UNCERTAINTY)} ps", "none",
               "Correct the network's numbers."),
    5: Meaning("a register has a number out of range, or its record a wrong mark", "the lowest such register",
               f"setup and hold are {span(MARGIN)} ps, low and high {span(LATENCY)} with low <= high, and both 0 for the host."),
    6: Meaning("a path has a number out of range, or its record a wrong mark", "the lowest such path",
               f"Its ends are registers of the network, dmin and dmax are {span(DELAY)} ps, and dmin <= dmax."),
    7: Meaning("the output has too little room: 14 + 16 times the registers bytes are due", "none",
               "Lend more room. The front end always lends enough."),
    8: Meaning("no schedule at any period, however long", "none",
               "The loop that is shown has hold and window rules alone, so no period helps. Slow its fast paths, lower hold times or u, or widen "
               "its windows."),
    9: Meaning("a schedule at some period, but at none up to the ceiling", "none",
               "The loop that is shown needs a longer period. Raise the ceiling, or make the slow paths of the loop faster."),
    10: Meaning("a rule question is out of range", "none",
                f"The period is {span(PERIOD)} ps, latencies are {span(LATENCY)} ps, and the rule must be one of the network's."),
}
NEVER = (7, 10)  # told to callers of the functions alone: the front end lends room enough and asks nothing out of range
STATUS = {0: 0, 8: 3, 9: 4}  # of a program; every other number is 1
USAGE, UNREADABLE, UNPROVED = 2, 5, 6


def status(number):
    return STATUS.get(number, 1)


def explained(number):
    meaning = NUMBERS[number]
    ends = [] if number in NEVER else [f"exit status: {status(number)}"]
    return "\n".join([f"{number}: {meaning.short}", f"place: {meaning.place}", meaning.advice, *ends]) + "\n"
