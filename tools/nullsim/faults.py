"""Faults: what was refused or failed, where, and what to do about it."""

import contextlib

from networks import errors

# Of a status of the program what to do (docs/RUNNING.md, "When it fails").
CURES = {
    2: "the words are wrong: is there such an interface, node or source?",
    3: "`nullsim check` says where the mistake is",
    4: "look at the disk, at `ulimit -n` and `ulimit -u`, and whether the ports are free",
    5: "take fewer partitions, or one replica",
    6: "the partitions do not agree: run it again, and keep the topology for a report",
    7: "run it again; of nodes a peer is lost or has another topology",
    8: "a trace file is not that of this topology: write it again",
}
# What the tools end with where an input is refused, and where a package or program is missing.
REFUSED, LACKING = 3, 4


class Fault(Exception):
    """`number` is the exit status, or of a refused topology the number of its refusal (docs/FORMATS.md); `place` where
    it is, such as "x.spec.toml:9: flow 0", or nothing; `cure` one sentence that says what is wrong or what to do."""

    def __init__(self, number: int, place: str, cure: str, line: str = ""):
        self.number, self.place, self.cure, self.line = number, place, cure, line
        super().__init__(": ".join(part for part in (place, line, cure) if part))

    def __reduce__(self):
        # A fault may come from a process that runs one of many variants.
        return type(self), (self.number, self.place, self.cure, self.line)


class Refused(Fault):
    """A SPEC, a file or a topology that is refused."""


class Failed(Fault):
    """The program did not end well."""


class Lacking(Fault):
    """A package or a program is missing."""


@contextlib.contextmanager
def told():
    """Faults of the makers of topologies, as those of this package."""
    try:
        yield
    except errors.Refused as why:
        raise Refused(REFUSED, str(why.place), why.sentence) from None
    except errors.Lacking as why:
        raise Lacking(LACKING, "", str(why)) from None


def cure_of(status: int, further: str = "") -> str:
    """What to do about a status of the program; `further` is the line that it adds on a terminal."""
    return further or CURES.get(status, f"nullsim ended with status {status}")
