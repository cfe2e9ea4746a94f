"""Commands: run to their end, with limits, or timed; and what the program answers."""

import os
import resource
import subprocess
import sys
import tempfile
import time
from collections import namedtuple

from dev.lib import here

# A call that takes longer does not end.
SECONDS = 60
# The line on standard error that goes with each status of the program.
LINES = {0: b"", 2: b"nullsim: usage\n", 4: b"nullsim: file\n", 5: b"nullsim: memory\n", 7: b"nullsim: stalled\n"}
# How a call ended: its status, or None where it was killed since it did not end; what it printed; and how long it took.
Ended = namedtuple("Ended", "status out errors seconds")
# What a command used: seconds by the clock, processor seconds, and its peak of memory in MiB.
Used = namedtuple("Used", "wall user system memory")
# It runs a command in a process of its own: the system counts the memory of the one that starts a program as the
# program's least, and this one has some 13 MiB.
MEASURE = """
import resource, subprocess, sys, time
begun = time.monotonic()
subprocess.run(sys.argv[2:], stdout=open(sys.argv[1], "wb"), check=True)
used = resource.getrusage(resource.RUSAGE_CHILDREN)
print(time.monotonic() - begun, used.ru_utime, used.ru_stime, used.ru_maxrss / 1024)
"""


class Failed(Exception):
    """A command that ended otherwise than it should."""


def call(words, seconds=SECONDS, **how):
    """Runs a command to its end. It is killed where that takes longer than it may."""
    begun = time.monotonic()
    child = subprocess.Popen(words, **{"stdin": subprocess.DEVNULL, "stdout": subprocess.PIPE,
                                       "stderr": subprocess.PIPE, **how})
    try:
        out, errors = child.communicate(timeout=seconds)
    except subprocess.TimeoutExpired:
        child.kill()
        return Ended(None, *child.communicate(), time.monotonic() - begun)
    return Ended(child.returncode, out, errors, time.monotonic() - begun)


def nullsim(*words, before=(), **how):
    """Runs the program with these words to its end; `before` are words that start it, as those of a limit."""
    return call([*before, here.NULLSIM, *map(str, words)], **how)


def done(ended, what):
    """What a call printed, which has to have ended with status 0."""
    if ended.status != 0:
        raise Failed(f"{what}: {ending(ended)}")
    return ended.out


def printed(*words, **how):
    """What the program prints with these words, which has to end with status 0."""
    return done(nullsim(*words, **how), f"nullsim {' '.join(map(str, words))}")


def output(*words, **how):
    """What another command prints, as a text."""
    return done(call(words, **how), " ".join(words)).decode(errors="replace")


def shown(words, to=sys.stdout, begun=lambda child: None):
    """Runs a command and shows its lines as they come; `begun` gets it first: its status, minutes and last line."""
    started, last = time.monotonic(), ""
    streams = {"stdout": subprocess.PIPE, "stderr": subprocess.STDOUT}
    child = subprocess.Popen(words, cwd=here.ROOT, text=True, errors="replace", **streams)
    begun(child)
    for line in child.stdout:
        to.write(line)
        last = line.strip() or last
    return child.wait(), (time.monotonic() - started) / 60, last


def ending(ended):
    """How a call ended, in a few words."""
    if ended.status is None:
        return f"no end after {ended.seconds:.0f} s"
    errors = (ended.errors or b"").decode(errors="replace").strip()
    return f"status {ended.status} after {ended.seconds:.1f} s, {errors[-300:]!r}"


def is_well(ended, statuses):
    """Whether the status is one of these, and the line on standard error the one that goes with it."""
    return ended.status in statuses and ended.errors == LINES[ended.status]


def limited(option, number):
    """The words before those of a program that run it with a limit of the shell (`ulimit`), or none."""
    return ["sh", "-c", f'ulimit {option} "$0" && exec "$@"', str(number)] if number else []


def timed(*words, out=os.devnull):
    """What a command used that ended with status 0. Its output goes to the file `out`, or to nobody."""
    words = [sys.executable, "-S", "-c", MEASURE, out, *map(str, words)]
    return Used(*map(float, output(*words, seconds=None).split()))


def namespace(*kinds):
    """The words that run a command in namespaces of its own of these kinds; None where the system allows none."""
    for more in (["--map-root-user"], []):
        words = ["unshare", *more, *(f"--{kind}" for kind in kinds)]
        try:
            if call([*words, "true"]).status == 0:
                return words
        except OSError:
            return None
    return None


def most_files(needed=0):
    """Lets this process and its children have as many open files as the system allows: whether that is enough."""
    most = resource.getrlimit(resource.RLIMIT_NOFILE)[1]
    resource.setrlimit(resource.RLIMIT_NOFILE, (most, most))
    return most >= needed


def folder(name="dev"):
    """A folder for a while."""
    return tempfile.TemporaryDirectory(prefix=f"{name}.")
