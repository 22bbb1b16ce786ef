"""Latencies that the caller gives: the JSON of `schedule`, the listing of `./list`, or a line for each register, its name or number and its
latency. The host may be left out; its latency is 0."""

import json
import re
from typing import NamedTuple

from .faults import LATENCY
from .table import meaningful
from .times import NoTime, exactly, with_unit

LISTING = re.compile(r"period [0-9]+\nlatency 0 0\n")
TITLES = ["register", "latency"]
DELIMITERS = "\t;,"  # the comma last, since one may stand in a number by mistake; where there is none of them, blanks


class Told(NamedTuple):
    who: str
    latency: str
    unit: str
    line: int = None


def read(text, network, unit):
    """The latency of each register, and every fault in words."""
    if text.lstrip().startswith("{"):
        return resolved(*of_json(text, network), by_number(network), network, unit)
    if LISTING.match(text):
        return resolved(*of_listing(text), by_number(network), network, unit)
    return resolved(*of_lines(text, unit), by_name(network), network, unit)


def by_number(network):
    return {str(i): i for i in range(len(network.registers))}


def by_name(network):
    """By number too, where no number is a name."""
    names, numbers = {network.name(i): i for i in range(len(network.registers))}, by_number(network)
    return names if names.keys() & numbers.keys() else {**numbers, **names}


def of_json(text, network):
    """By the registers' numbers. Where the network has names, those of the JSON must be the same, so that it is no other network's."""
    try:
        rows = [(str(one["register"]), str(one["name"]), str(one["latency"])) for one in json.loads(text)["latencies"]]
    except (ValueError, KeyError, TypeError, RecursionError):
        return [], ["no latencies in this JSON"]
    here = {number: network.name(i) for number, i in by_number(network).items()} if network.names else {}
    faults = [f"register {number} is called '{name}' there, and '{here[number]}' here" for number, name, _ in rows if here.get(number, name) != name]
    return [Told(number, latency, "ps") for number, _, latency in rows], faults


def of_listing(text):
    rows = [(count, line.split()) for count, line in enumerate(text.split("\n"), start=1) if line.startswith("latency ")]
    return [Told(*words[1:], "ps", count) for count, words in rows if len(words) == 3], []


def of_lines(text, unit):
    found, faults = [], []
    for count, line in enumerate(text.split("\n"), start=1):
        mark = next((one for one in DELIMITERS if one in line), None)
        cells = [cell.strip() for cell in line.split(mark)]
        if not meaningful(line) or [cell.lower() for cell in cells] == TITLES:
            continue
        if len(cells) == 2:
            found.append(Told(*cells, unit, count))
        else:
            faults.append(f"line {count}: '{line.strip()}' is no register and its latency")
    return found, faults


def resolved(told, faults, registers, network, unit):
    """The latencies by register; those who were told of are found in `registers`."""
    found = {}
    for one in told:
        line = f"line {one.line}: " if one.line else ""
        if one.who not in registers:
            faults.append(f"{line}'{one.who}' is no register of the network")
        elif registers[one.who] in found:
            faults.append(f"{line}a second latency of {one.who}")
        else:
            try:
                found[registers[one.who]] = exactly(one.latency, one.unit, LATENCY)
            except NoTime as no:
                found[registers[one.who]] = 0
                faults.append(f"{line}latency of {one.who}: {no}")
    if found.setdefault(0, 0) != 0:
        faults.append(f"the host's latency is 0, from which all are counted, and not {with_unit(found[0], unit)}")
    missing = [network.name(i) for i in range(len(network.registers)) if i not in found]
    faults += [f"the latency of {name} is missing" for name in missing] if told else []
    if not told and not faults:
        faults.append("no latencies here")
    return [found.get(i, 0) for i in range(len(network.registers))], faults
