"""The proved functions, asked through one process of the proved program `exam`. Nothing here computes an answer."""

import struct
import subprocess
import threading
from pathlib import Path
from typing import NamedTuple

from .network import LONGEST_FILE

ROOT = Path(__file__).resolve().parent.parent.parent.parent
RUN = (str(ROOT / "tools" / "run"), "exam")  # a release has the program ready; a clone proves and builds it where that was not done yet
ROOM = 14 + 16 * 256  # enough for every network
KINDS = ("setup", "hold", "low", "high")


class Unproved(Exception):
    """The proved program cannot be had."""


class Rule(NamedTuple):
    kind: str
    number: int


class Outcome(NamedTuple):
    number: int
    place: int
    period: int = None
    latencies: tuple = ()
    loop: tuple = ()


class Reply(NamedTuple):
    number: int
    place: int
    slack: int = None


def started(words):
    try:
        return subprocess.Popen(words, stdin=subprocess.PIPE, stdout=subprocess.PIPE)
    except OSError as error:
        raise Unproved(f"{words[0]} cannot be run: {error.strerror}") from None


def cut(data):
    """A file that is too long for any network is refused by its first bytes, and so alike is this much of it: the theorem `cut_refused`."""
    return data[:LONGEST_FILE + 1]


class Proved:
    """Use it as `with Proved() as proved:`. The process is started by the first question and ends with the block."""

    def __init__(self, words=RUN):
        self.words, self.process = words, None

    def __enter__(self):
        return self

    def __exit__(self, *_):
        if self.process is None:
            return
        try:
            self.process.stdin.close()
        except BrokenPipeError:
            pass  # it has stopped already
        self.process.stdout.close()
        self.process.wait()

    def schedule(self, data):
        """The outcome for a network file."""
        data = cut(data)
        answer = self.ask([b"S" + struct.pack("<2i", ROOM, len(data))], data, lambda: self.take(8 + ROOM))[0]
        number, place = struct.unpack_from("<2i", answer)
        return decoded(number, place, answer[8:])

    def questions(self, data, asked):
        """The reply to each question: period, rule, and the latencies at the tail and the head of the rule's arrow."""
        data = cut(data)
        heads = [b"Q" + struct.pack("<6i", period, KINDS.index(rule.kind), rule.number, tail, head, len(data)) for period, rule, tail, head in asked]
        return self.ask(heads, data, self.reply)

    def reply(self):
        number, place = struct.unpack("<2i", self.take(8))
        return Reply(number, place, None if number else struct.unpack("<i", self.take(4))[0])

    def ask(self, heads, data, answer):
        """Writes all requests, each a head and the file, while the answers are read, so that neither side waits for the other."""
        if self.process is None:
            self.process = started(self.words)
        writer = threading.Thread(target=self.write, args=(heads, data))
        writer.start()
        try:
            return [answer() for _ in heads]
        finally:
            writer.join()

    def write(self, heads, data):
        try:
            for head in heads:
                self.process.stdin.write(head + data)
            self.process.stdin.flush()
        except BrokenPipeError:
            pass  # the program has stopped; whoever reads its answers finds that

    def take(self, size):
        data = self.process.stdout.read(size)
        if len(data) != size:
            raise Unproved("the proved program cannot be had, or it stopped")
        return data


def decoded(number, place, out):
    """What stands in the output: RULES, section 7."""
    if number not in (0, 8, 9):
        return Outcome(number, place)
    period, latencies, entries = struct.unpack_from("<3i", out, 2)
    found = tuple(struct.unpack_from("<i", out, 14 + 6 * i + 2)[0] for i in range(latencies))
    loop = (struct.unpack_from("<2i", out, 14 + 6 * latencies + 10 * j + 2) for j in range(entries))
    return Outcome(number, place, period if number == 0 else None, found, tuple(Rule(KINDS[kind], name) for kind, name in loop))
