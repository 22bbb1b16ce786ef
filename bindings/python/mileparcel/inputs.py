"""What the front end is handed: networks, names, latencies and periods, from files or standard input."""

import codecs
from typing import NamedTuple

from . import forms, given_latencies, times, words
from .faults import PERIOD


class Around(NamedTuple):
    """What a command is run in: standard input, output and error, and the proved program."""

    read: object
    write: object
    say: object
    proved: object


class Stop(Exception):
    """Nothing can be answered: why, and the exit status."""

    def __init__(self, why, status=words.USAGE):
        super().__init__(why)
        self.status = status


def content(name, around):
    if name == "-":
        return around.read()
    try:
        with open(name, "rb") as file:
            return file.read()
    except OSError as error:
        raise Stop(f"{name} cannot be read: {error.strerror}", words.UNREADABLE) from None


def stored(name, data):
    if name == "-":
        raise Stop("standard output is for the answer: name a file")
    try:
        with open(name, "wb") as file:
            file.write(data)
    except OSError as error:
        raise Stop(f"{name} cannot be written: {error.strerror}", words.UNREADABLE) from None


def given(options):
    """What options say of a table, as words."""
    told = {title: getattr(options, title) for title in ("setup", "hold", "u", "floor", "ceiling")}
    if options.window is not None:
        ends = options.window.split(",")
        if len(ends) != 2:
            raise Stop(f"--window is LOW,HIGH, and not '{options.window}'")
        told["low"], told["high"] = ends
    return {title: word for title, word in told.items() if word is not None}


def source(options, around):
    """The network that was handed in, with the names that go with it."""
    data = content(options.file, around)
    if data.startswith((codecs.BOM_UTF16_LE, codecs.BOM_UTF16_BE)):
        raise Stop("this is a text in UTF-16: save it as UTF-8", 1)
    form = options.form or forms.told_apart(data)
    told = given(options)
    if told and form != "csv":
        raise Stop(f"--{'window' if 'low' in told else min(told)} is for CSV, and this is {called(form)}")
    if options.names is not None and form == "csv":
        raise Stop("--names is for text and network files: a CSV has the names in it")
    found = forms.read(data, form, options.unit, told)
    if options.names is not None and found.network:
        names = named(options.names, around, len(found.network.registers))
        found = forms.read(data, form, options.unit, told, names)
    return found


def called(form):
    return {"csv": "CSV", "text": "text", "file": "a network file"}[form]


def named(name, around, registers):
    try:
        return forms.read_names(content(name, around), registers)
    except ValueError as no:
        raise Stop(f"{name}: {no}", 1) from None


def period(options):
    """The period asked about; None where none was."""
    try:
        return None if options.period is None else times.exactly(options.period, options.unit, PERIOD)
    except times.NoTime as no:
        raise Stop(f"--period: {no}") from None


def latencies(options, around, network):
    """The latency of each register, of a file that the caller gives."""
    found, faults = given_latencies.read(forms.decoded(content(options.latencies, around)), network, options.unit)
    if faults:
        raise Stop(f"{options.latencies} cannot be read as latencies\n" + "\n".join(f"  {fault}" for fault in faults), 1)
    return found
