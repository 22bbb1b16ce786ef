"""What each command of the front end does."""

from . import forms, inputs, report, shape, svg, timing, times, words
from .inputs import Stop

ASKED = "one period was asked about"
SCHEDULE_WORST, SLACK_WORST = 5, 20  # slacks that are printed where no number was asked for


class Disagreement(Exception):
    """The words and the proved module tell different things of a network: one of them is wrong, and nothing is answered."""


def put(around, options, found, parts, text):
    """Writes an answer in the form that was asked for."""
    around.write(encoded(shape.dumped(options.command, found, parts) if options.json else text))


def encoded(text):
    """In UTF-8. What an option or a file's name has that is none is told as a question mark."""
    return text.encode(errors="replace")


def agreed(found, outcome):
    """Holds the faults in words to the proved module: the lowest of them has its number and place."""
    told = (outcome.number, outcome.place) if 1 <= outcome.number <= 6 else None
    if found.refusal != told:
        raise Disagreement(f"the module refuses with {told}, and the front end's words are for {found.refusal}")


def faulty(options, around, found):
    """Tells every fault. A text or table that never became a file has no number."""
    if found.data is not None:
        agreed(found, around.proved.schedule(found.data))
    parts = {"result": shape.result(*found.refusal) if found.refusal else None, "faults": shape.faults(found.faults)}
    put(around, options, found, parts, report.faults(found))
    return 1


def check(options, around):
    found = inputs.source(options, around)
    if found.faults:
        return faulty(options, around, found)
    agreed(found, around.proved.schedule(found.data))
    put(around, options, found, {"result": shape.accepted(), "faults": []}, report.accepted(found))
    return 0


def asked(found, around, period):
    """The outcome at this period alone, or at any where it is None; the file that was asked about; and the loop that is shown."""
    data = found.data if period is None else found.network.at_period(period).to_bytes()
    outcome = around.proved.schedule(data)
    agreed(found, outcome)
    at = outcome.period - 1 if outcome.number == 0 else period or found.network.ceiling
    return outcome, data, timing.loop(around.proved, data, found.network, at, outcome.loop) if outcome.loop else None


def schedule(options, around):
    found = inputs.source(options, around)
    period = inputs.period(options)
    if found.faults:
        return faulty(options, around, found)
    outcome, data, loop = asked(found, around, period)
    if outcome.number:
        return unanswered(options, around, found, outcome, loop, period)
    flat = timing.without_skew(around.proved, data, found.network, outcome.period)
    told = timing.worst(timing.slacks(around.proved, data, found.network, outcome.period, outcome.latencies))
    draw(options, found, f"period {times.with_unit(outcome.period, found.unit)}", loop, told, svg.AT_FLOOR if period is None else ASKED)
    # Least latencies leave many windows no room below; that is what least means, and would hide the paths.
    paths = [one for one in told if one.rule.kind in timing.PATH_RULES]
    count = SCHEDULE_WORST if options.worst is None else options.worst
    parts = {**shape.schedule(found.network, outcome, loop, flat, period), "slacks": shape.slacks(found.network, paths[:count], timing.ends)}
    put(around, options, found, parts, report.schedule(found, outcome, loop, flat, paths, count, period))
    return 0


def unanswered(options, around, found, outcome, loop, period):
    """Refusals 8 and 9, with the loop that proves them."""
    draw(options, found, words.NUMBERS[outcome.number].short if period is None else f"no schedule at {times.with_unit(period, found.unit)}", loop, [])
    parts = {"result": shape.result(outcome.number, outcome.place), "asked": period, "loop": shape.loop(found.network, loop)}
    put(around, options, found, parts, report.unanswered(found, outcome, loop, period))
    return words.status(outcome.number)


def slack(options, around):
    found = inputs.source(options, around)
    period = inputs.period(options)
    if found.faults:
        return faulty(options, around, found)
    loop, absent = None, "the latencies were given"
    if options.latencies is not None or options.no_skew:
        if period is None:
            raise Stop("--period is due with --latencies and with --no-skew")
        agreed(found, around.proved.schedule(found.data))
        latencies = [0] * len(found.network.registers) if options.no_skew else inputs.latencies(options, around, found.network)
    else:
        outcome, _, loop = asked(found, around, period)
        if outcome.number:
            return unanswered(options, around, found, outcome, loop, period)
        absent = svg.AT_FLOOR if period is None else ASKED
        period, latencies = outcome.period, outcome.latencies
    rules = [rule for rule in timing.rules(found.network) if not options.kind or rule.kind in options.kind]
    told = timing.worst(timing.slacks(around.proved, found.data, found.network, period, latencies, rules))
    draw(options, found, f"slacks at {times.with_unit(period, found.unit)}", loop, told, absent)
    parts = {"result": shape.result(0), "period": period, "latencies": shape.latencies(found.network, latencies),
             "rules": len(told), "broken": sum(one.slack < 0 for one in told),
             "slacks": shape.slacks(found.network, told[:options.worst], timing.ends)}
    count = SLACK_WORST if options.worst is None else options.worst
    put(around, options, found, parts, report.slack(found, period, told, count))
    return 0


def draw(options, found, about, loop, told, absent=None):
    """The picture, where one was asked for; `absent` says why there is no loop, where there is none."""
    if options.svg is None:
        return
    title = f"{'standard input' if options.file == '-' else options.file}: {about}"
    pairs = [(one.rule.kind, one.slack) for one in told]
    drawn = svg.picture(title, shape.loop(found.network, loop), pairs, found.unit, lambda time: times.show(time, found.unit), absent)
    inputs.stored(options.svg, encoded(drawn))


def convert(options, around):
    found = inputs.source(options, around)
    made = found.network
    if made is None or found.data is None or options.to == "csv" and unnamed(made):
        around.say(report.faults(found).rstrip())
        return 1
    if found.faults:
        around.say(f"mileparcel: this network has {len(found.faults)} fault{'s' if found.faults[1:] else ''}; mileparcel check tells")
    if found.rounded:
        around.say(f"mileparcel: {report.rounding(found)}")
    data = forms.write(made, options.to)
    if options.write_names is not None and options.write_names == options.output:
        raise Stop("-o and --write-names name one file")
    if options.write_names is not None:
        inputs.stored(options.write_names, "".join(f"{made.name(i)}\n" for i in range(1, len(made.registers))).encode())
    if options.output in (None, "-"):
        around.write(data)
    else:
        inputs.stored(options.output, data)
    return 0


def unnamed(network):
    """Whether a path leads from or to a register that is not there, so that it has no name to stand in a table."""
    registers = range(len(network.registers))
    return any(path.source not in registers or path.sink not in registers for path in network.paths)


def explain(options, around):
    around.write(words.explained(options.number).encode())
    return 0
