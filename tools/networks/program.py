"""Calls the program nullsim, and reads the comma-separated values that it prints."""

import csv
import os
import shutil
import subprocess

from networks import errors

# The folder that has tools/ in it: of the tree, or share/nullsim of an installed one.
TOP = os.path.dirname(os.path.dirname(os.path.dirname(os.path.realpath(__file__))))
OWN = os.path.join(TOP, "bin", "nullsim")
INSTALLED = os.path.join(os.path.dirname(os.path.dirname(TOP)), "bin", "nullsim")


def found(asked=None):
    """The program: as asked, that of the tree or beside the installed tools, or nullsim on the path."""
    own = next((path for path in (OWN, INSTALLED) if os.path.isfile(path)), None)
    program = asked or own or shutil.which("nullsim")
    if not program:
        raise errors.Lacking("this needs nullsim: build it (`make`), or name it with --nullsim")
    return program


def ended(program, *words):
    """How the program ends with these words: its status, and what it printed."""
    try:
        return subprocess.run([program, *words], capture_output=True, text=True, check=False)
    except OSError as why:
        raise errors.Lacking(f"{errors.shown(program)} does not run: {why.strerror}") from None


def printed(program, topology, word, *words):
    """What a word about a topology prints, which has to end well."""
    end = ended(program, word, topology, *words)
    if end.returncode:
        raise errors.Refused(topology, f"nullsim ends with {end.stderr.strip() or end.returncode}: `nullsim check` "
                                       "says more")
    return end.stdout


def rows(program, topology, *words):
    """The rows of comma-separated values that a word prints, a dictionary each."""
    return list(csv.DictReader(printed(program, topology, *words).splitlines()))


class Report:
    """What `report TOPO csv` says of a topology with these tables of sources: for each kind (node, interface, source),
    by name, the number of each measure; and a row for each source with these columns, as `report TOPO csv delays` has
    it, but that a measure which it does not have is missing. Where that word prints another form, this class alone
    changes."""

    NAMES = ("source", "kind", "node", "to")

    def __init__(self, text, tables):
        self.measures = {}
        for row in csv.DictReader(text.splitlines()):
            self.measures.setdefault(row["kind"], {}).setdefault(row["name"], {})[row["measure"]] = int(row["value"])
        found = self.measures.get("source", {})
        self.sources = [{"source": number, "kind": table["kind"], "node": table["node"], "to": table.get("to", "-"),
                         **found[str(number)]} for number, table in enumerate(tables)]
        self.columns = [*self.NAMES, *max(found.values(), key=len, default=())]
