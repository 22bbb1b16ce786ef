"""The front end: ./mileparcel COMMAND .. Its commands are in commands.py; here are its words, its options and its exit status."""

import argparse
import os
import sys

from . import commands, inputs, version, words
from .faults import PERIOD
from .proved import KINDS, Proved, Unproved
from .reading import printable
from .timing import Refused
from .times import UNITS

INTERRUPTED = 130  # as shells have it
STATUSES = """exit status:
  0  answered, no fault found, or converted
  1  the network is at fault, refused by a number from 1 to 6 or not to be read; or a file of names or latencies is
  2  not called rightly
  3  refused by number 8: no schedule at any period
  4  refused by number 9: no schedule up to the ceiling, or none at the period asked about
  5  a file could not be read, or the answer not be written
  6  the proved program could not be had, or told something else than the front end's words"""
FORM_NOTE = """FILE is a network as CSV, as text or as a network file, told apart by its content; without it, or where it is -, standard input
is read. docs/USING.md has the forms."""


def parser():
    top = argparse.ArgumentParser(prog="mileparcel", description="Schedules clock skew with proved functions.", epilog=STATUSES, **PLAIN)
    top.add_argument("--version", action="store_true", help="print the version, and the identity of the kit that proves it")
    kinds = top.add_subparsers(dest="command", metavar="COMMAND")
    for add in (add_schedule, add_slack, add_check, add_convert, add_explain):
        add(kinds)
    return top


PLAIN = {"formatter_class": argparse.RawDescriptionHelpFormatter, "allow_abbrev": False}


def command(kinds, name, about, examples, note=FORM_NOTE):
    shown = "".join(f"  ./mileparcel {example}\n" for example in examples)
    return kinds.add_parser(name, help=about, description=f"{about[0].upper()}{about[1:]}.\n\n{note}".rstrip(),
                            epilog=f"examples:\n{shown}\n{STATUSES}", **PLAIN)


def add_schedule(kinds):
    one = command(kinds, "schedule", "the shortest period, the latencies, and why the clock cannot be faster",
                  ["schedule examples/a.net", "schedule examples/own.csv --json", "schedule examples/own.csv --period 8",
                   "schedule examples/real/dds-30.txt --names examples/real/dds.names --svg dds.svg"])
    input_options(one)
    one.add_argument("--period", metavar="P", help="ask about this one period")
    answer_options(one, commands.SCHEDULE_WORST)
    one.set_defaults(run=commands.schedule)


def add_slack(kinds):
    one = command(kinds, "slack", "each rule's slack, worst first: at the answer, or at latencies of yours",
                  ["slack examples/a.net", "slack examples/own.csv --no-skew --period 10",
                   "slack examples/own.csv --period 9 --latencies examples/own.latencies"])
    input_options(one)
    one.add_argument("--period", metavar="P", help="the period; without it that of the answer, and due with latencies of yours")
    given = one.add_mutually_exclusive_group()
    given.add_argument("--latencies", metavar="FILE", help="latencies: a line for each register, its name or number and its latency")
    given.add_argument("--no-skew", action="store_true", help="every latency is 0")
    one.add_argument("--kind", choices=KINDS, action="append", help="rules of this kind alone; may be repeated")
    answer_options(one, f"{commands.SLACK_WORST}, and all in JSON,")
    one.set_defaults(run=commands.slack)


def add_check(kinds):
    one = command(kinds, "check", "every fault of a network in words", ["check examples/own.csv", "check examples/pipeline.txt --json"])
    input_options(one)
    one.add_argument("--json", action="store_true", help="write JSON, as docs/mileparcel.schema.json has it")
    one.set_defaults(run=commands.check)


def add_convert(kinds):
    one = command(kinds, "convert", "from one form of a network to another, in whole picoseconds",
                  ["convert examples/own.csv --to file -o own.net", "convert examples/a.net --to text", "convert examples/counter.txt --to csv"])
    input_options(one)
    one.add_argument("--to", choices=("csv", "text", "file"), required=True, help="the form to write")
    one.add_argument("-o", "--output", metavar="OUT", help="write there and not to standard output")
    one.add_argument("--write-names", metavar="FILE", help="write the names of all registers but the host there, which text and file do not hold")
    one.set_defaults(run=commands.convert)


def add_explain(kinds):
    one = command(kinds, "explain", "a number that the module returns, in words", ["explain 6", "explain 8"], note="")
    one.add_argument("number", type=int, metavar="NUMBER", choices=sorted(words.NUMBERS), help="0 to 10")
    one.set_defaults(run=commands.explain)


def input_options(one):
    one.add_argument("file", nargs="?", default="-", metavar="FILE", help="the network")
    one.add_argument("--form", choices=("csv", "text", "file"), help="the network's form, where its content does not tell")
    one.add_argument("--unit", choices=sorted(UNITS, reverse=True), default="ps",
                     help="of the times in CSV and text, and of those printed; ps without it")
    one.add_argument("--names", metavar="FILE", help="names of the registers, one to a line: of all but the host, or of all where the first is host")
    table = one.add_argument_group("for CSV, where no column gives it")
    table.add_argument("--setup", metavar="T", help="setup time of every register")
    table.add_argument("--hold", metavar="T", help="hold time of every register")
    table.add_argument("--window", metavar="LOW,HIGH", help="window of every register but the host; write --window=-10,10")
    table.add_argument("--u", metavar="T", help="clock uncertainty")
    table.add_argument("--floor", metavar="T", help=f"least period to look at; {PERIOD[0]} ps without it")
    table.add_argument("--ceiling", metavar="T", help=f"greatest period to look at; {PERIOD[1]} ps without it")


def count(word):
    """A number from 0 up, for argparse."""
    if not word.isdecimal():
        raise argparse.ArgumentTypeError(f"'{word}' is no count")
    return int(word)


def answer_options(one, worst):
    one.add_argument("--worst", type=count, metavar="N", help=f"how many slacks to tell, worst first; {worst} without it")
    one.add_argument("--json", action="store_true", help="write JSON, as docs/mileparcel.schema.json has it")
    one.add_argument("--svg", metavar="FILE", help="draw the loop that binds and the slacks")


def run(words_given, read, write, say, proved):
    """One call: its exit status. What stands around it (standard input, output and error, the proved program) is handed in."""
    top = parser()
    options = top.parse_args(words_given)
    if options.version:
        write(version.told().encode())
        return 0
    if options.command is None:
        top.print_usage(sys.stderr)
        return words.USAGE
    try:
        return options.run(options, inputs.Around(read, write, say, proved))
    except inputs.Stop as stop:
        for line in f"mileparcel: {stop}".split("\n"):
            say(printable(line))
        return stop.status
    except (Unproved, commands.Disagreement, Refused) as none:
        say(printable(f"mileparcel: {none}"))
        return words.UNPROVED


def standard_input():
    if sys.stdin is None:
        raise inputs.Stop("standard input is closed", words.UNREADABLE)
    return sys.stdin.buffer.read()


def standard_output(data):
    if sys.stdout is None:
        raise inputs.Stop("standard output is closed", words.UNREADABLE)
    sys.stdout.buffer.write(data)
    sys.stdout.buffer.flush()


def standard_error(line):
    try:
        if sys.stderr is not None:  # else print would take standard output for it
            print(line, file=sys.stderr)
    except OSError:
        pass  # nobody hears it, and the exit status tells still


def main():
    try:
        with Proved() as proved:
            return run(sys.argv[1:], standard_input, standard_output, standard_error, proved)
    except BrokenPipeError:
        os.dup2(os.open(os.devnull, os.O_WRONLY), sys.stdout.fileno())  # else the interpreter would try to write once more
        return words.UNREADABLE
    except OSError as error:
        standard_error(f"mileparcel: standard input or output failed: {error.strerror or error}")
        return words.UNREADABLE
    except KeyboardInterrupt:
        return INTERRUPTED
