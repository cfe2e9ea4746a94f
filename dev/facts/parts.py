"""The parts of documents that are made from the tree, between marks; and planted bugs, which are edits of it."""

import textwrap

from dev.facts import definitions, needs, pages
from dev.lib import here
from dev.planted import bugs

PROVED, PLANTED, CONTRIBUTING = "docs/PROVED.md", "docs/PLANTED.md", "docs/CONTRIBUTING.md"


def edits():
    """How many must-fail edits there are, crate by crate."""
    counts = [(crate, len(here.files("crates", crate, "must-fail", ends=".edit"))) for crate in here.crates()]
    said = ", ".join(f"`{crate}` {count}" for crate, count in counts if count)
    text = f"There are {sum(count for _, count in counts)} must-fail edits: {said}."
    return textwrap.fill(text, pages.WIDTH, break_long_words=False, break_on_hyphens=False)


# For each part its document, its name, and what makes it.
PARTS = (
    (PROVED, "definitions", definitions.counts),
    (PLANTED, "planted", bugs.table),
    (PLANTED, "passed", bugs.passed),
    (CONTRIBUTING, "must-fail", edits),
    ("README.md", "needs", needs.table),
)


def check_parts(report):
    """Each part is what the tree has."""
    for document, name, make in PARTS:
        try:
            found = here.between(document, name)[0].rstrip("\n")
        except ValueError as fault:
            report.note(False, str(fault))
            continue
        report.note(found == make(), f"{document}: its part {name} is not what the tree has: dev/check/docs --write")


def write():
    """Writes all parts."""
    for document, name, make in PARTS:
        here.write_between(document, name, make())


def check_bugs(report):
    """Each planted bug is an edit of what is in the code, and no two of a list have one name."""
    for crate in bugs.crates():
        listed = bugs.bugs_of(crate)
        report.note(len({bug["bug"] for bug in listed}) == len(listed), f"dev/planted/{crate}.bugs: two bugs have one "
                                                                        "name")
        for bug in listed:
            try:
                text, place = here.read("crates", crate, bug["file"]), f"dev/planted/{crate}.bugs: {bug['bug']}"
            except OSError:
                report.note(False, f"{place}: there is no {bug['file']}")
                continue
            for old, _ in bug["edits"]:
                report.note(old in text, f"{place}: {bug['file']} has no {old.strip()!r}")
