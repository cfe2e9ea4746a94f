"""The program: where it is, and how it is called: what it prints, how far it is, and its faults."""

import contextlib
import os
import pty
import re
import subprocess
from collections.abc import Callable

from networks import program as programs

from nullsim import faults
from nullsim.records import Progress

# The line that the program shows on a terminal once a second.
PROGRESS = re.compile(r"(\d+)% simulated(?:, (\d+) packet-hops/s)?(?:, (\d+) s left)?")
TOPOLOGY = re.compile(r"nullsim: topology (\d+)")
# A line of `check` about a mistake: where, and what.
MISTAKE = re.compile(r'((?:line \d+)?(?:: )?(?:\w+ \d+(?: \("[^"]*"\))?)?)(?:: )?(.*)')
# What a terminal is told besides text: to wipe a line.
WIPE = "\x1b[K"


def program(asked: str | None = None) -> str:
    """Where the program nullsim is: as asked, as the variable NULLSIM says, in the tree of this package or beside it
    where that is installed, or on the path. `Lacking` is raised where it is nowhere."""
    with faults.told():
        return programs.found(asked or os.environ.get("NULLSIM"))


def said_lines(terminal: int, tell: Callable[[Progress], None] | None) -> list[str]:
    """The lines that come over a terminal until its other end is closed, without those of progress, which are told."""
    lines, rest = [], ""
    while True:
        try:
            octets = os.read(terminal, 4096)
        except OSError:
            octets = b""
        *whole, rest = re.split(r"[\r\n]+", rest + octets.decode(errors="replace"))
        for line in whole if octets else [*whole, rest]:
            line = line.replace(WIPE, "").strip()
            found = PROGRESS.search(line)
            if found and tell:
                tell(Progress(*(int(part) if part else None for part in found.groups())))
            elif line and not found:
                lines.append(line)
        if not octets:
            return lines


def ends() -> tuple[int, int]:
    """Where standard error is read, and where it goes: a terminal of its own, or a pipe if the system has none left."""
    try:
        return pty.openpty()
    except OSError:
        return os.pipe()


def call(words: list[str], out, tell: Callable[[Progress], None] | None = None) -> None:
    """Runs the program with these words, with standard output to the file `out`; `tell` is called once a second. Its
    standard error is a terminal of its own: there it says how far it is, and more of a fault."""
    own, far = ends()
    try:
        try:
            child = subprocess.Popen(words, stdin=subprocess.DEVNULL, stdout=out, stderr=far,
                                     env={**os.environ, "NULLSIM_EXPLAIN": "1"})
        except OSError as why:
            raise faults.Lacking(faults.LACKING, words[0], f"it does not run: {why.strerror}") from None
        finally:
            os.close(far)
        with ended_with(child):
            lines = said_lines(own, tell)
            status = child.wait()
    finally:
        os.close(own)
    if status:
        raise fault_of(words, status, lines)


@contextlib.contextmanager
def ended_with(child: subprocess.Popen):
    """A child that ends where this is left early, as by Ctrl-C."""
    try:
        yield
    finally:
        if child.poll() is None:
            child.terminate()
            child.wait()


def fault_of(words: list[str], status: int, lines: list[str]) -> faults.Fault:
    """The fault of a call: of a refused topology with the place that `check` says."""
    line = next((line for line in lines if line.startswith("nullsim: ")), "")
    further = " ".join(lines[lines.index(line) + 1:]) if line else ""
    found = TOPOLOGY.match(line)
    if not found:
        return faults.Failed(status, "", faults.cure_of(status, further), line)
    checked = subprocess.run([words[0], "check", words[2]], capture_output=True, text=True, check=False).stdout
    place, sentence = MISTAKE.match((checked.splitlines() or [""])[0]).groups()
    return faults.Refused(int(found[1]), place, sentence or faults.cure_of(status), line)
