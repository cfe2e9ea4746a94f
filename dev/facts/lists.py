"""What has to be listed, or to stand, in several places: the program's words, in its help, manual page and completion,
README and FORMATS; crates in ARCHITECTURE; the networks of examples/ that tests use, which are the constants of
nm_fixtures and stand in no other code; and the head of each script of dev/, of which checks and attacks are steps of
dev/deep."""

import ast
import glob
import os
import re

from dev.lib import here

# Where words stand, and the pattern of each: all of them, and no other.
LISTS = {
    "crates/nullsim/src/help.rt": r'^ {8}"(\w+)",$',
    "docs/nullsim.1": r'^\.BI "nullsim (\w+) "',
    "tools/completion/nullsim": r"^ *1:\*\) words=\((.*)\) ;;$",
    "README.md": r"^\| (`[^|]*`) \|",
}
FORMATS = "docs/FORMATS.md"
# A word that only the help has.
HELP = "help"
# A word in a cell of README's table.
WORD = r"`([a-z]+)(?= [A-Z]|`)"
FIXTURES = "crates/nm_fixtures/src/lib.rt"
NAMES = ("duo", "split", "shift", "ring")
# Where words of the command line are read otherwise than by the head, and why.
OTHERWISE = {
    "dev/check/docs": "it tries the program only without --still",
    "dev/check/network": "it goes on with another Python",
    "dev/lib/topologies.py": "it is a module, and prints a topology where it is called",
}
# What a script has in itself where it does not use the head.
OWN_WAYS = (r"\bargparse\b", r"\bsys\.argv\b", r"environ(?:\.get\(|\[)\"NULLSIM\"", r"\b77\b")


def words():
    """The program's words, as its reader compares them."""
    text = here.read("crates", "nm_command", "src", "command.rt")
    found = re.findall(r'word == "([a-z]+)"|^ *"([a-z]+)" (?:=>|if)', text, re.M)
    return {first or second for first, second in found}


def check_words(report):
    """Each list of words has all of them, and no other."""
    known, formats = words(), here.read(FORMATS)
    for path, pattern in LISTS.items():
        listed = " ".join(re.findall(pattern, here.read(path), re.M))
        found = {*(re.findall(WORD, listed) if path == "README.md" else listed.split())} - {HELP}
        report.note(not known - found, f"{path}: these words are missing: {', '.join(sorted(known - found))}")
        report.note(not found - known, f"{path}: these are no words: {', '.join(sorted(found - known))}")
    for word in sorted(known):
        report.note(re.search(rf"`{word}(?= [A-Z]|`)", formats), f"{FORMATS}: the word {word} is not named")


def check_crates(report):
    """Each crate has its place in ARCHITECTURE."""
    text = here.read("docs", "ARCHITECTURE.md")
    for crate in here.crates():
        report.note(f"`{crate}`" in text, f"docs/ARCHITECTURE.md: the crate {crate} is not named")


def bare(text):
    """A topology text without its comments."""
    return "".join(line for line in text.splitlines(keepends=True) if not line.startswith("#"))


def code():
    """The code of all crates, by its path from the root."""
    paths = glob.glob(here.path("crates", "*", "src", "**", "*.rt"), recursive=True)
    return {os.path.relpath(path, here.ROOT): here.read(path) for path in sorted(paths)}


def check_examples(report):
    """Four examples are, but for comments, the constants of FIXTURES and the files of the same names in data."""
    texts = code()
    for name in NAMES:
        example, constant = bare(here.octets(here.example(name)).decode()), name.upper()
        is_right = f'pub const {constant}: &str = r#"{example}"#;' in texts.get(FIXTURES, "")
        report.note(is_right, f"{FIXTURES}: {constant} is not examples/{name}.toml")
        for path, text in texts.items():
            if example in text or re.search(rf"\b(?:const|static) {constant}\b", text):
                report.note(path == FIXTURES, f"{path}: {constant} is in {FIXTURES} already")
        for path in glob.glob(here.path("crates", "*", "data", "**", f"{name}.toml"), recursive=True):
            report.note(bare(here.read(path)) == example, f"{path}: this is not examples/{name}.toml")


def scripts():
    """The scripts of dev/, by their paths from the root."""
    for path in here.files("dev"):
        name = os.path.relpath(path, here.ROOT)
        if os.access(path, os.X_OK) and here.octets(path).startswith(b"#!") and "fixtures" not in name:
            yield name


def check_heads(report):
    """Each script says what it does in its first words, and reads its words by the head that all have."""
    for name in scripts():
        text = here.read(name)
        tree = ast.parse(text)
        first = (ast.get_docstring(tree) or "").partition("\n")[0]
        report.note(re.match(r"[A-Z].*\w[.,:]?$", first), f"{name}: it does not begin with what it does")
        if name in OTHERWISE:
            continue
        report.note("script.parse(" in text, f"{name}: its words are not read by script.parse")
        for way in OWN_WAYS:
            report.note(not re.search(way, text), f"{name}: it has {way!r}, and not the head that all have")


def check_steps(report):
    """Each check and attack is a step of dev/deep, and each step is there."""
    calls = re.findall(r'"((?:attack|check|demo|compare)/[\w-]+)[\w -]*"', here.read("dev", "deep"))
    for name in scripts():
        if name.startswith(("dev/attack/", "dev/check/")):
            report.note(name.removeprefix("dev/") in calls, f"dev/deep: it has no step {name}")
    for call in calls:
        report.note(os.path.isfile(here.path("dev", call)), f"dev/deep: there is no dev/{call}")
