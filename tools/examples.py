#!/usr/bin/env python3
"""Writes the example networks to a folder.

    examples.py FOLDER         as text and as network files:
                               a         network A, worked by hand in the paper
                               d         network D, worked by hand in the paper
                               counter   network T7 of the paper: a counter of two bits, which toggle
                               pipeline  a pipeline of 40 registers with feedback, drawn from a fixed seed
    examples.py real FOLDER    the networks of real circuits, as network files; their texts are stored in examples/real
"""

import random
import sys
from pathlib import Path

import network

NETWORK_A = """\
# Network A. Its least period is 9: the setup and hold rules of path 0 contradict each other at 8.
network floor 1 ceiling 100 u 0
register setup 1 hold 1 low 0 high 0
register setup 1 hold 1 low -10 high 10
register setup 1 hold 1 low -10 high 10
path 0 1 2 9
path 1 2 2 3
path 2 0 2 6
"""

NETWORK_D = """\
# Network D. The loop of its two setup rules needs 15 / 2, so its least period is 8.
network floor 1 ceiling 100 u 0
register setup 0 hold 0 low 0 high 0
register setup 0 hold 0 low -10 high 10
path 0 1 5 10
path 1 0 5 5
"""

COUNTER = """\
# A counter of two bits, network T7. Path 0 is bit 0's way back to itself, path 2 bit 1's: a toggle flip-flop each, whose hold rule has
# no u in it. Path 1 is the carry. Its setup and hold rules, with u in both, contradict each other at 14, so the least period is 15.
network floor 1 ceiling 100 u 3
register setup 0 hold 0 low 0 high 0
register setup 2 hold 2 low -10 high 10
register setup 2 hold 2 low -10 high 10
path 1 1 2 5
path 1 2 4 9
path 2 2 3 6
"""

REAL = Path(__file__).resolve().parent.parent / "examples" / "real"
STAGES = 40
PATHS = 120


def pipeline(seed=67):
    """Register 0 feeds stage 1 and is fed by the last stage. Beside the stages' own paths, some paths skip stages and
    some feed back. Every path is slow enough for its hold rule at equal latencies, so that a schedule exists at some
    period; how short it can be is up to the latencies."""
    draw = random.Random(seed)
    lines = [
        f"# A pipeline of {STAGES} registers and {PATHS} paths: stages, skips forward and feedback. Times in picoseconds.",
        "network floor 100 ceiling 5000 u 12",
        "register setup 40 hold 20 low 0 high 0",
    ]
    for _ in range(1, STAGES):
        window = draw.randrange(100, 301, 25)
        lines.append(f"register setup {draw.randint(30, 60)} hold {draw.randint(10, 30)} low {-window} high {window}")
    for count in range(PATHS):
        source, sink = ends(draw, count)
        dmax = draw.randint(300, 900)
        dmin = dmax * draw.randint(35, 70) // 100
        lines.append(f"path {source} {sink} {dmin} {dmax}")
    return "\n".join(lines) + "\n"


def ends(draw, count):
    """The ends of a path: one for each stage first, then two skips for each feedback. None joins a register to itself,
    where latencies have no say."""
    if count < STAGES:
        return count, (count + 1) % STAGES
    if count % 3:
        source = draw.randrange(STAGES - 2)
        return source, min(source + draw.randint(2, 5), STAGES - 1)
    source = draw.randrange(1, STAGES)
    return source, max(source - draw.randint(1, 6), 0)


def texts():
    return {"a": NETWORK_A, "d": NETWORK_D, "counter": COUNTER, "pipeline": pipeline()}


def write(folder):
    folder = Path(folder)
    folder.mkdir(parents=True, exist_ok=True)
    for name, text in texts().items():
        (folder / f"{name}.txt").write_text(text)
        (folder / f"{name}.net").write_bytes(network.make(text))


def real_texts():
    return {path.stem: path.read_text() for path in sorted(REAL.glob("*.txt"))}


def write_real(folder):
    folder = Path(folder)
    folder.mkdir(parents=True, exist_ok=True)
    for name, text in real_texts().items():
        (folder / f"{name}.net").write_bytes(network.make(text))


def main(words):
    if len(words) == 1 and words != ["real"]:
        write(words[0])
    elif len(words) == 2 and words[0] == "real":
        write_real(words[1])
    else:
        print(__doc__, file=sys.stderr, end="")
        return 2
    return 0


if __name__ == "__main__":
    sys.exit(main(sys.argv[1:]))
