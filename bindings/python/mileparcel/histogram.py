"""The slacks as a histogram: bars of round width, stacked by kind, with 0 as an edge, so that no bar has both met and broken rules in it.

Slacks far from all others would press the rest into one bar. They are gathered in a bar of their own at the end, which says so.
"""

from collections import Counter, namedtuple

from .shapes import ALARM, FAINT, INK, KINDS, Panel, filling, line, number, text, tip, width

WIDE, HIGH = 660, 300  # of the plot
LEFT, TOP = 62, 84  # what stands before and above it
BREAK = 20  # between the bars and a bar at the end
MOST, LEAST = 28, 10  # bars of equal width
SMALL = 11  # the font of the axes

# Bars first to last, of `step` picoseconds each; whether slacks below the first and above the last are gathered.
Bins = namedtuple("Bins", "step first last below above")


def steps():
    """1, 2, 5, 10, 20, 50 and so on."""
    power = 1
    while True:
        yield from (power, 2 * power, 5 * power)
        power *= 10


def kept(values):
    """The least and the greatest of the sorted values that are no outliers, stretched to reach 0.

    The core is 0 and the values between the 5th and the 95th percentile; an outlier is farther from it than twice its length. Where almost
    all values are 0, the core is taken larger.
    """
    count = len(values)
    for cut in (max(1, count // 20), count // 50, count // 100, 0):
        if 2 * cut < count:
            low, high = min(values[cut], 0), max(values[-1 - cut], 0)
            if high > low:
                break
    reach = 2 * (high - low)
    near = [value for value in values if low - reach <= value <= high + reach]
    return min(near[0], 0), max(near[-1], -1)


def bins_of(values):
    """The bars for the sorted values: the narrowest round step that needs at most MOST of them."""
    low, high = kept(values)
    step = next(step for step in steps() if high // step - low // step < MOST)
    first, last = low // step, max(high // step, low // step + LEAST - 1)
    return Bins(step, first, last, values[0] < first * step, values[-1] >= (last + 1) * step)


def tally(slacks, bins):
    """How many slacks of each kind each bar has. A gathered end is the bar before the first or after the last."""
    return Counter((min(max(slack // bins.step, bins.first - 1), bins.last + 1), kind) for kind, slack in slacks)


def histogram(slacks, unit, show):
    """The panel of the slacks."""
    if not slacks:
        return Panel([text(0, 16, "No slacks to show", 16, bold=True)], 0, 0, width("No slacks to show", 16, bold=True), 24, 1)
    values = sorted(slack for _, slack in slacks)
    bins = bins_of(values)
    plot = Plot(bins, tally(slacks, bins), unit, show)
    parts = summary(slacks, unit, show) + plot.ground() + plot.count_axis() + plot.bars() + plot.slack_axis() + plot.ends()
    notes = list(plot.gathered(values))
    bottom = TOP + HIGH + 66
    parts += [text(LEFT, bottom + 16 * k, words, 12) for k, words in enumerate(notes)]
    right = max([LEFT + WIDE + 34, LEFT + WIDE + plot.widest / 2, *(LEFT + width(words, 12) for words in notes)])
    return Panel(parts, 0, 0, right, bottom + 16 * len(notes) - 8, 1)


def summary(slacks, unit, show):
    """How many there are and how the worst of them stands, in words."""
    worst = min(slack for _, slack in slacks)
    those = {kind for kind, slack in slacks if slack == worst}
    broken = sum(slack < 0 for _, slack in slacks)
    state = f"{counted(broken, 'rule')} {'is' if broken == 1 else 'are'} broken" if broken else "no rule is broken"
    words = f"worst slack {show(worst)} {unit} ({', '.join(kind for kind in KINDS if kind in those)}); {state}"
    parts = [text(0, 16, f"The slack of {counted(len(slacks), 'rule')}", 16, bold=True)]
    return parts + [text(0, 36, words, 13, bold=bool(broken), fill=ALARM if broken else INK)]


def counted(count, what):
    return f"{count} {what}{'' if count == 1 else 's'}"


class Plot:
    """Where bars and axes stand, and what they say."""

    def __init__(self, bins, counts, unit, show):
        self.bins, self.counts, self.unit, self.show = bins, counts, unit, show
        ends = bins.below + bins.above
        self.slot = (WIDE - BREAK * ends) / (bins.last - bins.first + 1 + ends)
        self.start = LEFT + (self.slot + BREAK if bins.below else 0)
        self.low, self.high = bins.first * bins.step, (bins.last + 1) * bins.step
        self.widest = max(width(show(edge * bins.step), SMALL) for edge in range(bins.first, bins.last + 2)) + 8
        tallest = max(self.total(bar) for bar, _ in counts)
        self.count_step = next(step for step in steps() if step * 6 >= tallest)
        self.top_count = -(-tallest // self.count_step) * self.count_step

    def time(self, value):
        return f"{self.show(value)} {self.unit}"

    def total(self, bar):
        return sum(self.counts[bar, kind] for kind in KINDS)

    def edge(self, bar):
        """Where a bar's first slack stands on the axis."""
        return self.start + (bar - self.bins.first) * self.slot

    def left_of(self, bar):
        """Where a bar begins: a gathered end stands apart from the axis."""
        return LEFT if bar < self.bins.first else self.edge(bar) + (BREAK if bar > self.bins.last else 0)

    def height(self, count):
        """Even a single slack among thousands is to be seen."""
        return max(1, count * (HIGH - 24) / self.top_count)

    def ground(self):
        """The side of the broken rules, tinted, and the words for both sides of 0."""
        zero, parts = self.edge(0), []
        if self.bins.first < 0 or self.bins.below:
            parts.append(f'<rect x="{LEFT}" y="{TOP}" width="{number(zero - LEFT)}" height="{HIGH}" fill="#fbe3e0"/>')
            parts.append(text(zero - 7, TOP - 8, "broken", 12, "end", bold=True, fill=ALARM))
        if self.bins.last >= 0:
            parts.append(text(zero + 7, TOP - 8, "met", 12, bold=True))
        return parts

    def count_axis(self):
        parts = []
        for count in range(0, self.top_count + 1, self.count_step):
            y = TOP + HIGH - count * (HIGH - 24) / self.top_count
            parts.append(line(LEFT, y, LEFT + WIDE, y, "#d8d8d8"))
            parts.append(text(LEFT - 7, y + 4, count, SMALL, "end"))
        return parts + [text(-TOP - HIGH / 2, 12, "number of rules", 12, "middle", turn=-90)]

    def bars(self):
        """The bars, each kind's part on those before it, and their counts above them."""
        parts = []
        for bar in sorted({bar for bar, _ in self.counts}):
            x, y = self.left_of(bar), TOP + HIGH
            rim = ALARM if bar < 0 else INK
            for kind in KINDS:
                count = self.counts[bar, kind]
                if count:
                    y -= self.height(count)
                    place = f'x="{number(x + 1)}" y="{number(y)}" width="{number(self.slot - 2)}" height="{number(self.height(count))}"'
                    told = tip(f"{count} {kind}, {self.reach(bar)}")
                    parts.append(f'<rect {place} fill="{filling(kind)}" stroke="{rim}" stroke-width="0.8">{told}</rect>')
            size = min(SMALL, self.slot / width(self.total(bar), 1, mono=True))
            parts.append(text(x + self.slot / 2, y - 3, self.total(bar), size, "middle", mono=True, fill=rim))
        return parts

    def reach(self, bar):
        """Which slacks a bar counts, in whole picoseconds."""
        step = self.bins.step
        if bar < self.bins.first:
            return f"below {self.time(self.low)}"
        if bar > self.bins.last:
            return f"{self.time(self.high)} or more"
        return self.time(bar) if step == 1 else f"{self.show(bar * step)} to {self.time((bar + 1) * step - 1)}"

    def slack_axis(self):
        bins, foot = self.bins, TOP + HIGH
        tick = next(step for step in steps() if step % bins.step == 0 and step // bins.step * self.slot >= self.widest)
        parts = [line(self.edge(bins.first), foot, self.edge(bins.last + 1), foot)]
        for edge in range(bins.first, bins.last + 2):
            if edge * bins.step % tick == 0:
                parts.append(line(self.edge(edge), foot, self.edge(edge), foot + 5))
                parts.append(text(self.edge(edge), foot + 17, self.show(edge * bins.step), SMALL, "middle", bold=edge == 0))
        words = f"slack in {self.unit}; each bar is {self.time(bins.step)} wide and counts its left edge"
        parts.append(line(self.edge(0), TOP - 20, self.edge(0), foot + 5, thick=2))
        return parts + [text(LEFT + WIDE / 2, foot + 46, words, 12, "middle", fill=FAINT)]

    def ends(self):
        """The feet of the gathered ends, with a break in the axis before them."""
        foot, right, parts, breaks = TOP + HIGH, LEFT + WIDE, [], []
        if self.bins.below:
            parts += [line(LEFT, foot, LEFT + self.slot, foot), text(LEFT, foot + 31, f"below {self.show(self.low)}", SMALL)]
            breaks.append(LEFT + self.slot + BREAK / 2)
        if self.bins.above:
            parts.append(line(right - self.slot, foot, right, foot))
            parts.append(text(right, foot + 31, f"{self.show(self.high)} or more", SMALL, "end"))
            breaks.append(right - self.slot - BREAK / 2)
        return parts + [line(x + side - 2, foot + 6, x + side + 2, foot - 6) for x in breaks for side in (-3, 3)]

    def gathered(self, values):
        """What is in the gathered ends, in words."""
        below, above = [value for value in values if value < self.low], [value for value in values if value >= self.high]
        if below:
            yield f"left bar: {counted(len(below), 'slack')} below {self.time(self.low)}, the least {self.time(below[0])}"
        if above:
            yield f"right bar: {counted(len(above), 'slack')} of {self.time(self.high)} or more, the greatest {self.time(above[-1])}"
