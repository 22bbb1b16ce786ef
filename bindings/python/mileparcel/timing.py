"""What people ask of a network, each number by the proved functions' own answers: its schedule, slacks, and why the clock is no faster."""

from typing import NamedTuple

from .proved import Rule

PATH_RULES = ("setup", "hold")


class Slack(NamedTuple):
    rule: Rule
    slack: int


class Bound(NamedTuple):
    """An arrow of a loop: the latency at `head` is at least that at `tail` plus `amount`."""

    rule: Rule
    tail: int
    head: int
    amount: int


class Loop(NamedTuple):
    """A loop of rules whose amounts add up to more than 0 at `period`: no latencies meet them all there."""

    period: int
    bounds: list

    @property
    def sum(self):
        return sum(bound.amount for bound in self.bounds)

    @property
    def need(self):
        """The period that the loop needs (RULES 4.3); None where it has no setup rule, so that no period helps."""
        setups = sum(bound.rule.kind == "setup" for bound in self.bounds)
        return self.period - (-self.sum // setups) if setups else None


class WithoutSkew(NamedTuple):
    """With every latency 0: the period that the setup rules allow, and the slacks of the other rules that are broken there."""

    period: int
    broken: list


class Refused(Exception):
    """A question that the module did not answer, though the network and the numbers are in range by the words of this package."""


def rules(network):
    """Every rule: of each path setup and hold, of each register but the host low and high (RULES 2.5)."""
    paths = [Rule(kind, p) for p in range(len(network.paths)) for kind in PATH_RULES]
    return paths + [Rule(kind, i) for i in range(1, len(network.registers)) for kind in ("low", "high")]


def ends(network, rule):
    """The registers at the tail and the head of a rule's arrow (RULES 2.2)."""
    if rule.kind in PATH_RULES:
        path = network.paths[rule.number]
        return (path.source, path.sink) if rule.kind == "setup" else (path.sink, path.source)
    return (0, rule.number) if rule.kind == "low" else (rule.number, 0)


def slacks(proved, data, network, period, latencies, asked=None):
    """The slack of each rule, or of those that are asked for, in that order."""
    asked = rules(network) if asked is None else asked
    told = proved.questions(data, [(period, rule, *(latencies[end] for end in ends(network, rule))) for rule in asked])
    for reply in told:
        if reply.number:
            raise Refused(f"the module refused a question with {reply.number} {reply.place}")
    return [Slack(rule, reply.slack) for rule, reply in zip(asked, told)]


def loop(proved, data, network, period, shown):
    """The loop that an outcome shows, at the period at which it contradicts itself. With latencies 0 a slack is the amount, its sign
    turned."""
    told = slacks(proved, data, network, period, [0] * len(network.registers), shown)
    return Loop(period, [Bound(rule, *ends(network, rule), -slack) for rule, slack in told])


def without_skew(proved, data, network, period):
    """What the network does with every latency 0; `period` is any period, to ask at."""
    told = slacks(proved, data, network, period, [0] * len(network.registers))
    least = period - min((slack for rule, slack in told if rule.kind == "setup"), default=period - network.floor)
    return WithoutSkew(max(least, network.floor), [(rule, slack) for rule, slack in told if rule.kind != "setup" and slack < 0])


def worst(told):
    """Slacks in rising order; the order of the rules where they are equal."""
    return sorted(told, key=lambda one: one.slack)
