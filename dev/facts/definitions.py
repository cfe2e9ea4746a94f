"""Which definitions a reader has to believe: all that the contracts of the program's promises use."""

import os
import re

from dev.lib import here

# The crate, the file and the function whose contracts are promised.
ROOTS = [("nm_program", "program", "run"), ("nm_run", "run", "run_all")]
# What is to be read for the words `one` and `onehex` alone.
FIRST = ["Rattle.nm_command.specs.Command", "Rattle.nm_offline.specs.Input", "Rattle.nm_offline.specs.Traces"]
USE = re.compile(r"^\s*(?:pub )?(?:ghost )?use ([A-Za-z_0-9.◌]+?)(?:\.\{([^}]*)\})?(?: as (\w+))?;?\s*$")


def text_of(crate, path):
    return here.read("crates", crate, path)


def uses(text):
    """The modules that a text uses, each with the names that it takes from there."""
    for line in text.splitlines():
        found = USE.match(line)
        if found and "." in found[1]:
            yield found[1], [name.strip().split(" as ")[-1] for name in (found[2] or found[3] or "").split(",")]


def place_of(module):
    """Of a module its crate and the file of definitions, or the file of code with the type."""
    words = module.split(".")
    if words[:1] != ["Rattle"] or len(words) < 4:
        return None
    crate, kind, rest = words[1], words[2], words[3:]
    if not os.path.isdir(here.path("crates", crate)) or kind != "specs":
        return None
    if rest[0] != "declared":
        return crate, os.path.join("specs", *rest) + ".antt", None
    rest = [word for word in rest[1:] if word != "TheVariants"]
    name = rest.pop() if rest[-1] != "TheConstants" else "constants" if rest.pop() else ""
    for end in (".rt", os.sep + "mod.rt"):
        path = os.path.join("src", *rest) + end
        if os.path.exists(here.path("crates", crate, path)):
            return crate, path, name
    return crate, os.path.join("src", "lib.rt"), name


class Closure:
    """All files that are reached, each once, what is used before what uses it; the types of the code that they name;
    and the modules outside of the repository."""

    def __init__(self, modules=()):
        self.files, self.types, self.outside, self.seen = [], {}, set(), set()
        for module in modules:
            self.reach(module)

    def reach(self, module):
        place = place_of(module)
        if place is None:
            self.outside.add(module)
            return
        crate, path, name = place
        if name is not None:
            self.types.setdefault((crate, path), set()).add(name)
        elif (crate, path) not in self.seen:
            self.seen.add((crate, path))
            for used, _ in uses(text_of(crate, path)):
                self.reach(used)
            self.files.append((crate, path))

    def reach_contract(self, crate, file, function):
        """Reaches all that a contract cites: these modules."""
        text = text_of(crate, os.path.join("src", file + ".rt"))
        # A function from its name to its body.
        begin = re.search(rf"^pub fn {function}\b", text, re.M).start()
        words = set(re.findall(r"[A-Za-z_0-9]+", text[begin : text.index("\n{\n", begin)]))
        cited = [module for module, names in uses(text) if words & set(names)]
        for module in cited:
            self.reach(module)
        return cited

    def crates(self):
        """The crates of the files, lowest first."""
        return [crate for crate in here.crates() if any(owner == crate for owner, _ in self.files)]

    def line_count(self):
        return sum(lines_of(*file) for file in self.files)


def lines_of(crate, path):
    return text_of(crate, path).count("\n")


def promised():
    """What the promises use, and for each of ROOTS the modules that its contract cites."""
    closure = Closure()
    return closure, [(root, closure.reach_contract(*root)) for root in ROOTS]


def counts():
    """How much there is to read, as docs/PROVED.md says it."""
    whole, first = promised()[0], Closure(FIRST)
    return (f"In all {len(whole.files)} files in {len(whole.crates())} crates, {whole.line_count():,} lines; "
            f"for `one` and `onehex` alone {len(first.files)} files, {first.line_count():,} lines.")
