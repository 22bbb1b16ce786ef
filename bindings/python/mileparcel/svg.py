"""A picture of an answer, as SVG text: the loop that binds as a ring, and the slacks of the rules as a histogram.

It needs nothing beside itself: no scripts, no fonts, no other files. The same input gives the same bytes, all of them ASCII.
"""

from .histogram import counted, histogram
from .ring import ring
from .shapes import COLOURS, DASHES, INK, KINDS, Panel, filling, line, mark, number, patterns, text, tip, width, written

AT_FLOOR = "the period is at the floor"
MARGIN = 24
GUTTER = 48  # between the ring and the histogram


def picture(title, loop, slacks, unit="ps", show=str, absent=AT_FLOOR):
    """The SVG text: on the left the loop that binds as a ring, on the right the slacks as a histogram.

    title is one line of text. loop is None, or the period, the sum and the rules of a closed chain: each rule an arrow with kind, number,
    tail, head and amount. slacks are pairs of a kind and whole picoseconds. show turns whole picoseconds into the text of a time in the unit.
    absent says why there is no loop.
    """
    left, right = ring(loop, unit, show, absent), histogram(slacks, unit, show)
    scale = left.scale
    head = headline(title)
    across = left.right - left.left + (GUTTER + right.right - right.left) * scale
    wide = max(across, (head.right - head.left) * scale) + 2 * MARGIN * scale
    top = (2 * MARGIN + head.bottom - head.top) * scale
    tall = max(left.bottom - left.top, (right.bottom - right.top) * scale)
    high = top + tall + MARGIN * scale
    parts = [*opening(wide, high), tip(title), f"<desc>{written(told(loop, slacks, unit, show))}</desc>"]
    parts += [*patterns(), f'<rect width="{number(wide)}" height="{number(high)}" fill="#ffffff"/>']
    parts += placed(head, MARGIN * scale, MARGIN * scale, scale)
    parts += placed(left, MARGIN * scale, top, 1)
    parts += placed(right, MARGIN * scale + left.right - left.left + GUTTER * scale, top, scale)
    whole = "\n".join([*parts, "</svg>", ""])
    return whole.encode("ascii", "xmlcharrefreplace").decode("ascii")


def opening(wide, high):
    size = f'width="{number(wide)}" height="{number(high)}" viewBox="0 0 {number(wide)} {number(high)}"'
    yield f'<svg xmlns="http://www.w3.org/2000/svg" {size} font-family="sans-serif" fill="{INK}" xml:space="preserve">'


def placed(panel, x, y, scale):
    """The panel with its upper left corner at a point."""
    move = f"translate({number(x - panel.left * scale)} {number(y - panel.top * scale)})"
    grow = f" scale({scale:g})" if scale != 1 else ""
    return [f'<g transform="{move}{grow}">', *panel.parts, "</g>"]


def headline(title):
    """The title, and what the kinds look like below it."""
    parts, x = [text(0, 20, title, 20, bold=True)], 0
    for kind in KINDS:
        parts.append(line(x, 44, x + 44, 44, COLOURS[kind], 2.5, DASHES[kind]))
        parts.append(mark(kind, x + 22, 44, 6))
        parts.append(f'<rect x="{x + 52}" y="37" width="22" height="14" fill="{filling(kind)}" stroke="{INK}" stroke-width="0.8"/>')
        parts.append(text(x + 81, 48.5, kind, 13))
        x += 150
    return Panel(parts, 0, 0, max(width(title, 20, bold=True), x), 56, 1)


def told(loop, slacks, unit, show):
    """The picture in words, for those who cannot see it."""
    words = "No loop is shown."
    if loop is not None:
        words = f"A loop of {counted(len(loop['rules']), 'rule')} whose amounts at {show(loop['period'])} {unit} add up to "
        words += f"{show(loop['sum'])} {unit}, which is above 0, so the clock cannot have this period."
    if not slacks:
        return f"{words} No slacks are shown."
    worst, broken = min(slack for _, slack in slacks), sum(slack < 0 for _, slack in slacks)
    return f"{words} A histogram of {counted(len(slacks), 'slack')}: the worst is {show(worst)} {unit}, {broken} of them are below 0."
