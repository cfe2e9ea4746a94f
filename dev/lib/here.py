"""Where things are, what crates.txt says, and the parts of documents that scripts write."""

import os
import pathlib

ROOT = os.path.dirname(os.path.dirname(os.path.dirname(os.path.abspath(__file__))))
# The program that is tried; --nullsim puts another in its place.
NULLSIM = os.path.join(ROOT, "bin", "nullsim")


def path(*parts):
    """A path below the root of the repository."""
    return os.path.join(ROOT, *parts)


def example(name):
    """The topology of examples/ that has a name."""
    return path("examples", f"{name}.toml")


def topologies():
    """The topologies of examples/, beside which SPECs of tools/network stand."""
    return [it for it in files("examples", ends=".toml") if not it.endswith(".spec.toml")]


def case_folders(*names):
    """Folders of the stored cases."""
    return [path("crates", "nullsim_cases", "data", "cases", name) for name in names]


def case_topologies(folder):
    """The topologies of a folder, by their paths."""
    names = sorted(os.listdir(folder)) if os.path.isdir(folder) else []
    return [os.path.join(folder, name) for name in names if name.endswith(".toml")]


def expected(topology):
    """The words of each line of the case beside a topology, but for comments."""
    case = topology.removesuffix(".toml") + ".expect"
    lines = octets(case).decode(errors="replace").splitlines() if os.path.exists(case) else []
    return [line.split() for line in lines if line.strip() and not line.lstrip().startswith("#")]


def read(*parts):
    """The text of a file, by its path from the root."""
    return pathlib.Path(path(*parts)).read_text(encoding="utf-8")


def octets(name):
    """The octets of a file."""
    return pathlib.Path(name).read_bytes()


def write(name, content):
    """Writes a file, a text or octets: its name."""
    pathlib.Path(name).write_bytes(content.encode() if isinstance(content, str) else content)
    return name


def crates():
    """The crates of crates.txt, lowest first, each with the crates of the repository and the toolchain that it uses."""
    return {name: uses for name, _, uses in crate_lines()}


def crate_lines():
    """The name of each crate, what stands before the colon of its line, and what it depends on."""
    for line in read("crates.txt").splitlines():
        head, found, uses = line.split("#")[0].partition(":")
        if found:
            yield head.split()[0], head.strip(), uses.split()


def below(crate, known):
    """All crates of the repository that a crate depends on, each after those that it depends on itself."""
    own = [name for name in known[crate] if name in known]
    return list(dict.fromkeys(it for name in own for it in (*below(name, known), name)))


def files(*parts, ends=""):
    """The files below a folder whose names have an end, in one order."""
    walked = os.walk(path(*parts), followlinks=True)
    return sorted(os.path.join(folder, name) for folder, _, names in walked for name in names if name.endswith(ends))


def between(document, name):
    """The part of a document between its marks, and what stands before and behind it."""
    begin, end = f"<!-- {name}: begin -->\n", f"<!-- {name}: end -->"
    before, found, rest = read(document).partition(begin)
    part, closed, behind = rest.partition(end)
    if not found or not closed:
        raise ValueError(f"{document} has no marks of {name}")
    return part, before + begin, end + behind


def write_between(document, name, text):
    """Writes lines between the marks of a part of a document."""
    _, before, behind = between(document, name)
    write(path(document), f"{before}{text}\n{behind}")
