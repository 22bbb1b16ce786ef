"""What the reports are made of: times, rules and loops of one source as people read them."""

from .times import show, with_unit

LONG = 20  # amounts that are written as one sum


class Writer:
    """Lines about one source, with its names and its unit."""

    def __init__(self, source):
        self.source, self.network, self.unit, self.lines = source, source.network, source.unit, []

    def __str__(self):
        return "".join(f"{line}\n" for line in self.lines)

    def add(self, line=""):
        self.lines.append(line)

    def time(self, value):
        return with_unit(value, self.unit)

    def number(self, value):
        return show(value, self.unit)

    def rule(self, rule):
        """A rule by the names of its registers, and where its record was read: `setup of path 3 (line 9), a to b`, `low end of the window of a`."""
        if rule.kind in ("low", "high"):
            return f"{rule.kind} end of the window of {self.network.name(rule.number)}{self.line('register', rule.number)}"
        path = self.network.paths[rule.number]
        ends = f"{self.network.name(path.source)} to {self.network.name(path.sink)}"
        return f"{rule.kind} of path {rule.number}{self.line('path', rule.number)}, {ends}"

    def line(self, record, number):
        line = self.source.lines.get((record, number))
        return f" (line {line})" if line else ""

    def latencies(self, latencies):
        """Two columns, names and latencies."""
        self.add("latency of each register's clock edge, counted from the host's")
        rows = [(self.network.name(i), self.number(latency)) for i, latency in enumerate(latencies)]
        left, right = (max(len(row[side]) for row in rows) for side in (0, 1))
        for name, latency in rows:
            self.add(f"  {name:<{left}}  {latency:>{right}} {self.unit}")

    def slacks(self, told, count):
        """The first ones of a list of slacks."""
        shown = told[:count]
        width = max((len(self.number(one.slack)) for one in shown), default=0)
        for one in shown:
            self.add(f"  {self.number(one.slack):>{width}} {self.unit}  {self.rule(one.rule)}")

    def loop(self, loop):
        """Each rule of a loop as an inequality and as a bound, and what the bounds add up to."""
        for bound in loop.bounds:
            self.add(f"  {self.rule(bound.rule)}")
            self.add(f"    {self.inequality(bound, loop.period)}")
            self.add(f"    so {self.latency(bound.head)} >= {self.latency(bound.tail)} {self.signed(bound.amount)}")
        self.add(f"  around the loop: {self.total(loop)}, which must be at most 0. No latencies can meet these rules together.")

    def total(self, loop):
        """The sum of a loop's amounts, each of them where they fit on a line."""
        if len(loop.bounds) > LONG:
            return f"the {len(loop.bounds)} amounts add up to {self.number(loop.sum)}"
        amounts = " ".join([self.number(loop.bounds[0].amount), *(self.signed(bound.amount) for bound in loop.bounds[1:])])
        return f"{amounts} = {self.number(loop.sum)}" if len(loop.bounds) > 1 else amounts

    def inequality(self, bound, period):
        """A rule as RULES 2.2 writes it, with its numbers by their names."""
        kind, number = bound.rule
        if kind == "low":
            return f"{self.latency(number)} >= low {self.number(self.network.registers[number].low)}"
        if kind == "high":
            return f"{self.latency(number)} <= high {self.number(self.network.registers[number].high)}"
        path = self.network.paths[number]
        receiver = self.network.registers[path.sink]
        sender, sink = self.latency(path.source), self.latency(path.sink)
        if kind == "setup":
            return f"{sender}{self.terms(dmax=path.dmax, setup=receiver.setup, u=self.network.u)} <= {sink}{self.terms(period=period)}"
        charged = bound.amount - receiver.hold + path.dmin  # of u, as the module has it (RULES 16.2)
        terms = {"hold": receiver.hold} if path.source == path.sink and charged == 0 else {"hold": receiver.hold, "u": charged}
        return f"{sender}{self.terms(dmin=path.dmin)} >= {sink}{self.terms(**terms)}"

    def latency(self, register):
        return f"x({self.network.name(register)})"

    def terms(self, **times):
        return "".join(f" + {name} {self.number(time)}" for name, time in times.items())

    def signed(self, time):
        """A term of a sum."""
        return f"{'-' if time < 0 else '+'} {self.number(abs(time))}"
