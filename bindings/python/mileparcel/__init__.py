"""Mileparcel from Python: networks, the proved functions, and what people ask of them.

    import mileparcel

    source = mileparcel.read(open("examples/own.csv", "rb").read())
    with mileparcel.Proved() as proved:
        outcome = proved.schedule(source.data)
        print(outcome.number, outcome.period, outcome.latencies)

`source.faults` has every fault in words, `source.network` the network with its names. `timing` has slacks and loops. The front end,
./mileparcel, is made of the same parts."""

__version__ = "1.0.0"

from .faults import Fault
from .forms import Source, read, write
from .network import Network, Path, Register
from .proved import Outcome, Proved, Reply, Rule, Unproved

__all__ = ["Fault", "Network", "Outcome", "Path", "Proved", "Register", "Reply", "Rule", "Source", "Unproved", "read", "write"]
