"""Answers as text for people."""

from . import words
from .reading import NUMBERS, UP
from .writer import Writer


def rounding(source):
    """How many times were rounded, and which way each of them goes."""
    titles = [title for record in NUMBERS.values() for title in record if title not in ("from", "to")]
    ups, downs = (", ".join(title for title in titles if (title in UP) == up) for up in (True, False))
    told = f"{source.rounded} of the times were rounded to whole picoseconds, to the safe side: up {ups}; down {downs}"
    return f"{told}. Times in nanoseconds need --unit ns." if source.unit == "ps" else told


def ended(writer):
    """The report; that times were rounded is said last."""
    if writer.source.rounded:
        writer.add()
        writer.add(rounding(writer.source))
    return str(writer)


def schedule(source, outcome, loop, flat, told, count, asked):
    """The answer to a network. `asked` is the one period that was asked about, None where any would do."""
    writer = Writer(source)
    answered(writer, outcome, flat, asked)
    writer.add()
    writer.latencies(outcome.latencies)
    writer.add()
    if asked is None:
        why(writer, outcome, loop)
        writer.add()
    writer.add(f"worst slacks at {writer.time(outcome.period)}, of {len(told)} setup and hold rules")
    writer.slacks(told, count)
    return ended(writer)


def answered(writer, outcome, flat, asked):
    if asked is not None:
        writer.add(f"at {writer.time(asked)} there is a schedule")
        return
    rows = [("period", outcome.period), ("without skew", flat.period), ("gain", flat.period - outcome.period)]
    width = max(len(writer.number(time)) for _, time in rows)
    notes = {"without skew": "  with every latency 0" + broken(writer, flat), "gain": f", {percent(flat.period, outcome.period)} %"}
    for name, time in rows:
        writer.add(f"{name:<12}  {writer.number(time):>{width}} {writer.unit}{notes.get(name, '')}")


def percent(flat, period):
    """The gain in percent of the period without skew, to one decimal."""
    return f"{100 * (flat - period) / flat:.1f}".replace("-0.0", "0.0")


def broken(writer, flat):
    """What else is broken without skew, so that this period is no choice."""
    if not flat.broken:
        return ""
    rule, slack = min(flat.broken, key=lambda one: one[1])
    count = len(flat.broken)
    others = f"{count} other rules are broken there, the worst" if count > 1 else "broken there is"
    return f", by the setup rules alone: {others} {writer.rule(rule)}, by {writer.time(-slack)}"


def why(writer, outcome, loop):
    if loop:
        rounded = ", with the times as rounded" if writer.source.rounded else ""
        writer.add(f"why the clock cannot have {writer.time(loop.period)}{rounded}: these rules contradict each other there")
        writer.loop(loop)
    else:
        writer.add(f"{writer.time(outcome.period)} is the floor, so no shorter period was looked for")


def unanswered(source, outcome, loop, asked):
    """Refusals 8 and 9."""
    writer = Writer(source)
    if outcome.number == 8:
        writer.add("refused 8: no schedule at any period, however long. These rules contradict each other, and none of them knows the period")
    elif asked is not None:
        writer.add(f"at {writer.time(asked)} there is no schedule: these rules contradict each other there")
    else:
        writer.add(f"refused 9: no schedule up to the ceiling, {writer.time(source.network.ceiling)}. These rules contradict each other there")
    writer.loop(loop)
    if loop.need is not None:
        writer.add(f"  This loop needs a period of at least {writer.time(loop.need)}; others may need more.")
    if asked is None or outcome.number == 8:
        writer.add(words.NUMBERS[outcome.number].advice)
    return ended(writer)


def slack(source, period, told, count):
    writer = Writer(source)
    negative = sum(one.slack < 0 for one in told)
    writer.add(f"slacks at {writer.time(period)}: {len(told)} rules, {f'{negative} of them broken' if negative else 'all met'}")
    writer.slacks(told, count)
    if len(told) > count:
        writer.add(f"  and {len(told) - count} more, each at least {writer.time(told[count].slack)}")
    setups = [one.slack for one in told if one.rule.kind == "setup"]
    if setups:
        writer.add(f"with these latencies every setup rule is met from {writer.time(max(1, period - min(setups)))} up")
    return ended(writer)


def accepted(source):
    writer = Writer(source)
    writer.add(f"accepted: {len(source.network.registers)} registers, {len(source.network.paths)} paths")
    return ended(writer)


def faults(source):
    """Every fault; and the number and place that the module tells, where a file could be made at all."""
    writer, count = Writer(source), len(source.faults)
    number, place = source.refusal or (None, None)
    writer.add(f"refused {number} {place}: {words.NUMBERS[number].short}" if number else "no network can be read here")
    for fault in source.faults:
        writer.add(f"  {fault.told()}")
    writer.add(f"{count} fault{'s' if count > 1 else ''}")
    if number in (1, 2, 3):
        writer.add(words.NUMBERS[number].advice)
    if source.network is None and number is None:
        writer.add("docs/USING.md has the forms of CSV and of text.")
    return ended(writer)
