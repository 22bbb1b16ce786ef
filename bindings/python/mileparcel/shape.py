"""Answers as JSON, of the shape that docs/mileparcel.schema.json has. All times are whole picoseconds, whatever the unit of the input."""

import json

from . import words
from .timing import PATH_RULES

FORMAT = "mileparcel-1"  # another shape gets another name


def dumped(command, source, parts):
    """One object: what was asked, what it was asked of, and the parts of the answer."""
    whole = {"format": FORMAT, "command": command, "input": origin(source), **parts}
    return json.dumps(whole, indent=1, ensure_ascii=False) + "\n"


def origin(source):
    return {"form": source.form, "unit": source.unit, "rounded": source.rounded, "network": counts(source.network) if source.network else None}


def counts(made):
    return {"registers": len(made.registers), "paths": len(made.paths), "floor": made.floor, "ceiling": made.ceiling, "u": made.u}


def result(number, place=0):
    return {"number": number, "place": place, "words": words.NUMBERS[number].short, "status": words.status(number)}


def accepted():
    """Of a check: there is no fault. Whether there is a schedule was not asked."""
    return {**result(0), "words": "accepted"}


def register(network, i):
    return {"register": i, "name": network.name(i)}


def latencies(network, values):
    return [{**register(network, i), "latency": latency} for i, latency in enumerate(values)]


def rule(network, one, tail, head):
    """A rule, the ends of the path that it is of, which a window rule has none of, and the ends of its arrow."""
    path = network.paths[one.number] if one.kind in PATH_RULES else None
    sender, receiver = (network.name(path.source), network.name(path.sink)) if path else (None, None)
    return {"kind": one.kind, "number": one.number, "from": sender, "to": receiver, "tail": network.name(tail), "head": network.name(head)}


def loop(network, found):
    if found is None:
        return None
    rules = [{**rule(network, bound.rule, bound.tail, bound.head), "amount": bound.amount} for bound in found.bounds]
    return {"period": found.period, "rules": rules, "sum": found.sum, "need": found.need}


def slacks(network, told, ends):
    return [{**rule(network, one.rule, *ends(network, one.rule)), "slack": one.slack} for one in told]


def faults(found):
    titles = ("number", "place", "record", "field", "value", "least", "greatest", "line", "words")
    return [{title: getattr(fault, title) for title in titles} for fault in found]


def schedule(network, outcome, found, flat, asked):
    gain = flat.period - outcome.period if asked is None else None
    return {"result": result(0), "asked": asked, "period": outcome.period, "without_skew": without_skew(flat), "gain": gain,
            "latencies": latencies(network, outcome.latencies), "loop": loop(network, found)}


def without_skew(flat):
    worst = min((slack for _, slack in flat.broken), default=None)
    return {"period": flat.period, "broken": len(flat.broken), "worst": worst}
