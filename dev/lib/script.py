"""The head of each script: its words, the program that it tries, and how it ends; and what is tried many times, some at
once, until much is wrong, so that a step ends in its time."""

import argparse
import os
import random
import subprocess
import sys
from concurrent.futures import ThreadPoolExecutor

from dev.lib import here

# The status of what lacks something that it needs: it was passed over, which is no pass.
PASSED_OVER = 77
# No more faults are printed.
MOST_FAULTS = 40
# No more is tried once so much is wrong, and no more of it is printed.
MOST_WRONG = 20


def whole(text):
    """A number of the command line, which may have commas."""
    return int(text.replace(",", ""))


def parse(doc, *words, tries=True, **numbers):
    """The words of the command line. `words` are pairs for argparse: a name, and how it is read; `numbers` come last,
    each with its value where it is left out. Where the script tries the program it has the option --nullsim."""
    reader = argparse.ArgumentParser(description=doc, formatter_class=argparse.RawDescriptionHelpFormatter)
    for name, how in words:
        reader.add_argument(name, **how)
    for name, default in numbers.items():
        reader.add_argument(name, nargs="?", type=whole, default=default, help=f"{default:,} where it is left out")
    if tries:
        reader.add_argument("--nullsim", metavar="PROGRAM", default=here.NULLSIM, help="instead of bin/nullsim")
    asked = reader.parse_args()
    if tries:
        here.NULLSIM = os.path.abspath(asked.nullsim)
        if not os.access(here.NULLSIM, os.X_OK):
            reader.error(f"{here.NULLSIM} is not built: make builds it")
    return asked


def flag(text):
    """How a word is read that is there or not."""
    return {"action": "store_true", "help": text}


def passed_over(why):
    """Ends where something is missing that the script needs."""
    print(f"passed over, which is no pass: {why}", flush=True)
    sys.exit(PASSED_OVER)


INSIDE = ("--inside", flag("in these namespaces, without new ones"))


def run_inside(namespaces, *words):
    """Runs this script again, with the word --inside behind those that make namespaces: its status."""
    words = [*namespaces, sys.executable, os.path.abspath(sys.argv[0]), "--inside", "--nullsim", here.NULLSIM, *words]
    return subprocess.run(list(map(str, words)), check=False).returncode


class Report:
    """What passed, what failed, and what was passed over."""

    def __init__(self):
        self.passed = self.failed = self.over = 0

    def note(self, is_right, what):
        """Counts a check, and prints what is wrong where it failed."""
        self.passed, self.failed = self.passed + bool(is_right), self.failed + (not is_right)
        if not is_right and self.failed <= MOST_FAULTS:
            print(what, flush=True)
        return is_right

    def same(self, what, found, wanted):
        """Counts a check of what was found beside what was wanted."""
        return self.note(found == wanted, f"{what}: {found!r}, and not {wanted!r}")

    def pass_over(self, what):
        self.over += 1
        print(f"passed over: {what}", flush=True)

    def end(self, what=""):
        """Prints the last line, and says the status: where nothing was tried, it is a failure."""
        print(f"{what}{self.passed} passed, {self.failed} failed, {self.over} passed over")
        if self.failed or not self.passed + self.over:
            return 1
        return PASSED_OVER if self.over else 0


def each(works, one, at_once):
    """What `one` comes to for each work, so many at once: its first part is a list of what is wrong. Works that were
    not tried are left out."""
    wrong = 0

    def tried(work):
        nonlocal wrong
        if wrong >= MOST_WRONG:
            return None
        found = one(work)
        wrong += len(found[0])
        return found
    with ThreadPoolExecutor(at_once) as pool:
        return [found for found in pool.map(tried, works) if found is not None]


def chances(chance, times):
    """A chance for each of so many runs, and its number."""
    return [(random.Random(chance.random()), number) for number in range(times)]


def faults_of(ends):
    """All that is wrong."""
    return [fault for end in ends for fault in end[0]]


def end(faults, line):
    """Prints what is wrong, and last what was tried: the status."""
    for fault in faults[:MOST_WRONG]:
        print(fault)
    print(f"{line}; {len(faults)} wrong", flush=True)
    return 1 if faults else 0
