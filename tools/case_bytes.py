#!/usr/bin/env python3
"""Writes the files of the worked networks, byte by byte, as a module of proofs: `tools/case_bytes.py` prints it.

The bytes come from crates/exam/stdin, the requests that are stored for `exam`, and not from the definitions. The module states that the
definitions give each worked network these bytes, a line for each record. `test_case_bytes.py` holds crates/worked/proofs/CaseBytes.antt to what
this prints: `tools/case_bytes.py > crates/worked/proofs/CaseBytes.antt` writes it anew.
"""
import pathlib
import sys

ROOT = pathlib.Path(__file__).resolve().parent.parent
STDIN = ROOT / "crates" / "exam" / "stdin"
MODULE = ROOT / "crates" / "worked" / "proofs" / "CaseBytes.antt"
PAPER = ["A", "A2", "A3", "A4", "A5", "A6", "A7", "B", "D", "E", "F"]  # rows of Cases.antt
REQUESTS = ["T", "T2", "T3", "T4", "T5", "T6", "T7", "T8", "T9"]  # rows of RequestCases.antt
NAMES = PAPER + REQUESTS
HEADER, RECORD = 22, 18

TOP = """-- The files of the worked networks, byte by byte and a line for each record, as `exam` has them for its stored input: tools/case_bytes.py
-- writes this file from them. What stands in the definitions and what is run are so the same bytes. Rests on the definitions alone.
use mathlib.Core.Path.{◌≡◌, refl}
use mathlib.Core.List.{[], ◌∷◌}
use Rattle.whole.specs.Four.{word_of, bytes_of, four}
use Rattle.worked.specs.Cases.{file_of, PAPER}
use Rattle.worked.specs.RequestCases.{REQUESTS}
"""

STATEMENT = """
file_NAME : file_of case_NAME.network
    ≡ BYTES
    ∷ []
unfolding file_of four bytes_of word_of
file_NAME = refl
"""


def number(data, place):
    """The number that stands at a place: four bytes, low byte first."""
    if place + 4 > len(data):
        raise ValueError("the input ends within a request")
    return int.from_bytes(data[place : place + 4], "little", signed=True)


def requests(data):
    """The room and the file of each request, up to the last byte: `S`, the room, the file's length, the file."""
    found, place = [], 0
    while place < len(data):
        if data[place : place + 1] != b"S":
            raise ValueError(f"byte {place} begins no request to schedule")
        room, length = number(data, place + 1), number(data, place + 5)
        end = place + 9 + length
        if length < 0 or end > len(data):
            raise ValueError("the input ends within a request")
        found.append((room, data[place + 9 : end]))
        place = end
    return found


def records(file):
    """The file cut into its header and its records; of a file that is not whole, the last is shorter."""
    return [file[:HEADER]] + [file[place : place + RECORD] for place in range(HEADER, len(file), RECORD)]


def statement(name, file):
    lines = "\n    ∷ ".join(" ∷ ".join(map(str, record)) for record in records(file))
    return STATEMENT.replace("NAME", name.lower()).replace("BYTES", lines)


def cases(names):
    return ", ".join("case_" + name.lower() for name in names)


def module(data):
    """The module that states the bytes of the requests' files."""
    files = [file for _, file in requests(data)]
    if len(files) != len(NAMES):
        raise ValueError(f"{len(files)} requests, and {len(NAMES)} worked networks")
    top = TOP.replace("PAPER", cases(PAPER)).replace("REQUESTS", cases(REQUESTS))
    return top + "".join(statement(name, file) for name, file in zip(NAMES, files))


if __name__ == "__main__":
    sys.stdout.write(module(STDIN.read_bytes()))
