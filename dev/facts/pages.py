"""Documents and code comments: that what they name is there, and how wide they are."""

import glob
import os
import re

from dev.lib import here

WIDTH = 160
LINK = re.compile(r"\]\(([^)\s]+)\)")
# A path in backticks: it begins with a folder of the tree, and names no pattern.
PATH = re.compile(r"`((?:crates|docs|tools|examples|dev|specs|proofs)/[\w./+-]+)[^`]*`")
# A path in a recipe or a comment of the Makefile, or in the head of a script.
BARE_PATH = re.compile(r"(?<![\w/.])((?:docs|tools|examples|dev)/[\w./-]*\w)")
TARGET = re.compile(r"`make ([a-z-]+)[^`]*`")
# Words that stand for names.
PATTERN = re.compile(r"NAME|CRATE|FOLDER|PROGRAM|SCRIPT")
# Sentences that would say again what was so once: each a pattern, where it may stand, and what is so.
OUTDATED = (
    (r"rt try[^`\n]*--fail-alloc", ("docs/DECISIONS.md",), "memory is refused by dev/attack/refuse-growths"),
    (r"(?<![/\w])bench/\w|tools/(?:check|planted|compare|demo|little|peers)\b", (), "these scripts are in dev/"),
    (r"Tested\*?:[^.\n]*(?<!worked out) by hand\b", (), "dev/check/edge tries the program's edge"),
)


def documents():
    """README.md and the documents, by their paths from the root."""
    return ["README.md", *sorted(os.path.relpath(path, here.ROOT) for path in glob.glob(here.path("docs", "*.md")))]


def is_there(document, path):
    """Whether a path that a document names is there: from the root, from the document, or a module of definitions or
    proofs of some crate."""
    path = path.split("#")[0]
    if not path or path.startswith(("http:", "https:", "mailto:")):
        return True
    places = [here.path(path), here.path(os.path.dirname(document), path)]
    if path.startswith(("specs/", "proofs/")):
        places += [here.path("crates", "*", path), here.path("crates", "*", path + ".antt")]
    places += [place + end for place in list(places) for end in (".antt", ".rt")]
    return any(glob.glob(place) for place in places)


def has_anchor(document, link):
    """Whether a link that names a heading of a document names one that is there."""
    path, _, anchor = link.partition("#")
    target = os.path.normpath(os.path.join(os.path.dirname(document), path)) if path else document
    if not anchor or ":" in link or not os.path.isfile(here.path(target)):
        return True
    heads = re.findall(r"^#+ (.*)$", here.read(target), re.M)
    # As a forge makes them.
    return anchor in {re.sub(r"[^\w -]", "", head.lower()).replace(" ", "-") for head in heads}


def targets():
    """The targets of the Makefile."""
    return set(" ".join(re.findall(r"^([a-z][\w/ -]*):", here.read("Makefile"), re.M)).split())


def comments():
    """The comments of the code, each with its place."""
    for path in here.files("crates", ends=".rt"):
        name = os.path.relpath(path, here.ROOT)
        for number, line in enumerate(here.read(path).split("\n") if "/out/" not in name else [], 1):
            if "//" in line:
                yield f"{name}:{number}", line.partition("//")[2]


def check_paths(report):
    """Links and their headings, paths and targets of make that documents, comments, the Makefile and scripts name."""
    known, named = targets(), [(place, path) for place, text in comments() for path in PATH.findall(text)]
    for document in documents():
        for number, line in enumerate(here.read(document).split("\n"), 1):
            place, links = f"{document}:{number}", LINK.findall(line)
            named += [(place, path) for path in links + PATH.findall(line)]
            for link in links:
                report.note(has_anchor(document, link), f"{place}: there is no heading {link}")
            for target in TARGET.findall(line):
                report.note(target in known, f"{place}: there is no target {target}")
    named += [(path, found) for path in ["Makefile", *scripts()] for found in BARE_PATH.findall(here.read(path))]
    for place, path in named:
        if not PATTERN.search(path):
            report.note(is_there(place, path), f"{place}: {path} is not there")


def scripts():
    """The scripts of tools/ and dev/ and their modules, by their paths from the root; without their tests."""
    paths = [path for folder in ("tools", "dev") for path in here.files(folder)]
    names = [os.path.relpath(path, here.ROOT) for path in paths]
    return [name for name in names if is_script(name) and "/tests/" not in name and "/fixtures/" not in name]


def is_script(name):
    """Whether a file of tools/ or dev/ is Python."""
    return name.endswith(".py") or "." not in os.path.basename(name) and here.octets(here.path(name)).startswith(
        b"#!/usr/bin/env python3")


def check_outdated(report):
    """Sentences of documents and comments that are so no longer."""
    texts = [(document, here.read(document)) for document in documents()] + list(comments())
    for pattern, allowed, what in OUTDATED:
        wrong = [place for place, text in texts if re.search(pattern, text) and place.split(":")[0] not in allowed]
        report.note(not wrong, f"{', '.join(wrong)}: a sentence like {pattern!r}: {what}")


def check_width(report):
    """Lines of prose, and rows of tables."""
    for document in documents():
        is_block = False
        for number, line in enumerate(here.read(document).split("\n"), 1):
            is_block ^= line.startswith("```")
            is_row, place = line.startswith("|") and not is_block, f"{document}:{number}"
            if len(line) > WIDTH and not is_block and not is_row:
                report.note(line.startswith("```"), f"{place}: {len(line)} characters; prose has {WIDTH} at most")
            if is_row:
                report.note(line.endswith("|"), f"{place}: a row of a table goes on in the next line")
