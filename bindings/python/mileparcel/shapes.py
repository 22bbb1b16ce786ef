"""What the ring and the histogram share: text and how wide it is, numbers, and the look of the four kinds of rules."""

import re
import unicodedata
from collections import namedtuple
from xml.sax.saxutils import escape

from .proved import KINDS

INK, FAINT, ALARM = "#222222", "#666666", "#a50f15"

# The colours stay apart for the colour-blind, and no kind is told by its colour alone: lines have a dash and a mark, bars a pattern.
COLOURS = {"setup": "#0072b2", "hold": "#d55e00", "low": "#009e73", "high": "#aa4499"}
DASHES = {"setup": None, "hold": "9 4", "low": "2 3", "high": "10 3 2 3"}
MARKS = {
    "setup": [(-0.7, -0.7), (0.7, -0.7), (0.7, 0.7), (-0.7, 0.7)],
    "hold": [(0, -1), (1, 0), (0, 1), (-1, 0)],
    "low": [(-1, 0.8), (0, -1), (1, 0.8)],
    "high": [(-1, -0.8), (0, 1), (1, -0.8)],
}
PATTERNS = {
    "hold": "M-2 2L2 -2M0 8L8 0M6 10L10 6",
    "low": "M1 2h2M5 6h2",
    "high": "M0 1.5h8M0 5.5h8",
}

# Widths in parts of the font size, on the wide side of what common fonts have.
CELL, LETTER, BOLD = 0.61, 0.62, 0.7

# A drawing in its own coordinates, and the box that holds all of it.
Panel = namedtuple("Panel", "parts left top right bottom scale")


def clean(words):
    """The words without what XML cannot hold. Line ends and tabs become blanks, for a label is one line."""
    words = re.sub(r"[\t\n\r]", " ", str(words))
    return re.sub("[^ -\ud7ff\ue000-\ufffd\U00010000-\U0010ffff]", "\ufffd", words)


def written(words):
    """The words as XML has them."""
    return escape(clean(words))


def number(value):
    """A coordinate with at most one decimal, and no minus before 0."""
    return f"{round(value, 1) + 0.0:.1f}".removesuffix(".0")


def cells(words):
    """How many cells of a fixed-width font the words take: wide characters take two, combining ones none."""
    return sum(0 if unicodedata.combining(c) else 2 if unicodedata.east_asian_width(c) in "WF" else 1 for c in clean(words))


def width(words, size, mono=False, bold=False):
    return cells(words) * size * (CELL if mono else BOLD if bold else LETTER)


def text(x, y, words, size=12, anchor="start", mono=False, bold=False, fill=INK, turn=None):
    """One line of text on the baseline y. turn is an angle in degrees about the origin, clockwise."""
    more = ' font-family="monospace"' if mono else ""
    more += ' font-weight="bold"' if bold else ""
    more += f' text-anchor="{anchor}"' if anchor != "start" else ""
    more += f' fill="{fill}"' if fill != INK else ""
    more += f' transform="rotate({turn:g})"' if turn else ""
    return f'<text x="{number(x)}" y="{number(y)}" font-size="{number(size)}"{more}>{written(words)}</text>'


def line(x1, y1, x2, y2, stroke=INK, thick=1, dash=None):
    more = f' stroke-dasharray="{dash}"' if dash else ""
    ends = f'x1="{number(x1)}" y1="{number(y1)}" x2="{number(x2)}" y2="{number(y2)}"'
    return f'<line {ends} stroke="{stroke}" stroke-width="{number(thick)}"{more}/>'


def tip(words):
    """What the shape around it is called; a pointer that rests on the shape shows it."""
    return f"<title>{written(words)}</title>"


def mark(kind, x, y, size):
    """The kind's mark, with a white rim that keeps it apart from the line below it."""
    points = " ".join(f"{number(x + size * across)},{number(y + size * down)}" for across, down in MARKS[kind])
    return f'<polygon points="{points}" fill="{COLOURS[kind]}" stroke="#ffffff" stroke-width="1"/>'


def filling(kind):
    """What a bar of the kind is filled with: a plain colour, or the colour under a pattern."""
    return f"url(#bars-{kind})" if kind in PATTERNS else COLOURS[kind]


def patterns():
    """The definitions that filling() names: white strokes on the kind's colour."""
    parts = ["<defs>"]
    for kind, strokes in PATTERNS.items():
        parts.append(
            f'<pattern id="bars-{kind}" width="8" height="8" patternUnits="userSpaceOnUse"><rect width="8" height="8" fill="{COLOURS[kind]}"/>'
            f'<path d="{strokes}" stroke="#ffffff" stroke-width="{2 if kind == "low" else 1.5}" fill="none"/></pattern>'
        )
    return parts + ["</defs>"]


def signed(amount, unit, show):
    """An amount with its sign and unit."""
    return f"{'+' if amount > 0 else ''}{show(amount)} {unit}"
