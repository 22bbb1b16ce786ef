"""Network files from text and back, for the tools: what `mileparcel convert` does, by the same module."""

import sys
from pathlib import Path

sys.path.insert(0, str(Path(__file__).resolve().parent.parent / "bindings" / "python"))

from mileparcel import forms, text  # noqa: E402  the path comes first
from mileparcel.network import HEADER, RECORD, from_bytes  # noqa: E402

__all__ = ["HEADER", "RECORD", "Malformed", "make", "show"]


class Malformed(Exception):
    """A text that no network file can be made of."""


def make(lines):
    """The bytes of the network file that a text describes. Ranges are not asked for, so that faulty files can be made too."""
    source = forms.read(lines.encode(), "text")
    if source.data is None:
        raise Malformed("; ".join(fault.told() for fault in source.faults))
    return source.data


def show(data):
    """The text that describes a network file."""
    return text.write(from_bytes(data))
