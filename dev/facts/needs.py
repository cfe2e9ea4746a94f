"""Which Python and which Debian packages scripts need, by what they import, beside `make help` and README."""

import ast
import functools
import os
import re

from dev.facts import pages
from dev.lib import here

LEAST = (3, 9)
# Modules and methods of Python that came later than LEAST.
NEWER = {"tomllib": (3, 11), "nullsim": (3, 11), "networks.topology": (3, 11)}
# The packages of Debian that have a module, or a program by its name.
PACKAGES = {"matplotlib": "python3-matplotlib", "networkx": "python3-networkx", "dot": "graphviz", "gpmetis": "metis",
            "tshark": "tshark", "tcpdump": "tcpdump", "cc": "gcc", "g++": "g++", "valgrind": "valgrind",
            "flake8": "flake8", "pandas": "python3-pandas", "numpy": "python3-numpy",
            "mpirun": "openmpi-bin", "srun": "slurm-wlm", "/usr/include/ns3/core-module.h": "libns3-dev"}
# Tools of a user, and scripts that call others: what they call, or load by other means than an import. DRAWN are the
# tools that commands of documents call.
TOOLS = {"tools/network": [], "tools/launch": [], "tools/nullsim": [], "tools/plot": [], "tools/page": ["tools/plot"]}
DRAWN = ["tools/network", "tools/plot", "tools/page"]
CALLS = {**TOOLS, "dev/check/network": ["tools/networks"], "dev/check/docs": DRAWN,
         "dev/check/first-day": DRAWN, "dev/check/first-day --tutorial": DRAWN,
         "dev/deep": ["dev/check", "dev/attack", "dev/compare"]}
# Targets whose packages are those of the others that they call.
OF_OTHERS = ("deep",)
NETWORKS = "docs/NETWORKS.md"
HELP = re.compile(r"^  make(?: ([a-z-]+))?( \*)?(?= )")


def modules(names):
    """The files of those modules that are of the repository."""
    paths = (here.path(top, *name.split(".")) + ".py" for name in names for top in ("", "tools"))
    return [path for path in paths if os.path.isfile(path)]


def imported(tree):
    """The names of the modules that a file imports."""
    for node in ast.walk(tree):
        if isinstance(node, ast.Import):
            yield from (it.name for it in node.names)
        elif isinstance(node, ast.ImportFrom) and node.module:
            yield node.module
            yield from (f"{node.module}.{it.name}" for it in node.names)


def called(tree):
    """The programs and modules that a file looks for: given to `shutil.which` and its like, or keys of READERS."""
    for node in ast.walk(tree):
        if isinstance(node, ast.Call) and isinstance(node.func, (ast.Attribute, ast.Name)):
            name = node.func.attr if isinstance(node.func, ast.Attribute) else node.func.id
            if name in ("which", "find_spec", "needs_module", "needs_program", "module"):
                yield from (it.value for it in node.args if isinstance(it, ast.Constant))
        elif isinstance(node, ast.Assign) and isinstance(node.targets[0], ast.Name):
            if node.targets[0].id == "READERS" and isinstance(node.value, ast.Dict):
                yield from (key.value for key in node.value.keys)
            elif node.targets[0].id.endswith("_HEADER") and isinstance(node.value, ast.Constant):
                yield node.value.value


@functools.lru_cache(maxsize=None)
def names_in(text):
    """The modules and programs that a file names."""
    tree = ast.parse(text)
    return {name for name in (*imported(tree), *called(tree)) if isinstance(name, str)}


def closure(paths):
    """All files of the repository that these use, each with the names in it."""
    found = {}
    while paths:
        path = paths.pop()
        if path not in found:
            found[path] = names_in(here.read(path))
            paths += modules(found[path])
    return found


def version(python):
    return ".".join(map(str, python))


def needs_of(script):
    """The least Python and the packages of a script; with an option behind it, it looks for no package."""
    paths = []
    for name in (script.split()[0], *CALLS.get(script, [])):
        paths += filter(pages.is_script, here.files(name) if os.path.isdir(here.path(name)) else [here.path(name)])
    python, packages = LEAST, set()
    for names in closure(paths).values():
        python = max([python, *(NEWER[name] for name in names if name in NEWER)])
        packages |= {PACKAGES[name] for name in names if name in PACKAGES}
    return python, packages if script in CALLS or " " not in script else set()


def scripts_of_targets():
    """The scripts that the recipe of each target of the Makefile calls."""
    found, heads = {}, []
    for line in here.read("Makefile").split("\n"):
        rule = re.match(r"([a-z][\w /-]*):(?: ([a-z]+-)%:)?", line)
        if rule:
            heads = [(name, name[len(rule[2] or ""):]) for name in rule[1].split()]
        elif line.startswith("\t"):
            for name, stem in heads:
                calls = re.findall(r"(?<![\w/])dev/[\w/$*-]+(?: --[a-z]+)?", line)
                found.setdefault(name, []).extend(call.replace("$*", stem) for call in calls)
    return {name: calls for name, calls in found.items() if calls}


def help_lines():
    """The lines of `make help`: the target, whether it has a star, and the packages in parentheses."""
    target, found = None, {}
    for line in here.read("Makefile").partition("define HELP\n")[2].partition("\nendef")[0].split("\n"):
        head = HELP.match(line)
        if head:
            target = head[1] or "all"
            found[target] = [bool(head[2]), ""]
        elif not line.startswith(" "):
            target = None
        if target:
            found[target][1] += line
    return found


def check_help(report):
    """Targets have a star where they need a later Python, and name the packages that their scripts look for."""
    helped, called_by = help_lines(), scripts_of_targets()
    for target, scripts in sorted(called_by.items()):
        needs = [needs_of(script) for script in scripts if os.path.isfile(here.path(script.split()[0]))]
        if "/" in target or not report.note(target in helped, f"make help: it does not list {target}"):
            continue
        python, (has_star, text) = max((python for python, _ in needs), default=LEAST), helped[target]
        what = f"make help: {target} needs Python {version(python)}, and has {'a' if has_star else 'no'} star"
        report.note(has_star == (python > LEAST), what)
        for package in set().union(*(packages for _, packages in needs)) if target not in OF_OTHERS else ():
            report.note(package in text, f"make help: {target} does not name the package {package}")
    unknown = set(helped) - pages.targets()
    report.note(not unknown, f"make help: it lists {', '.join(sorted(unknown))}")


def table():
    """What the tools of a user need."""
    rows = ["| Tool | Python | Debian packages, without which it does less |", "|---|---|---|"]
    for script in (it for it in TOOLS if it.startswith("tools/")):
        python, packages = needs_of(script)
        rows.append(f"| `{script}` | {version(python)} | {', '.join(sorted(packages))} |")
    return "\n".join(rows)


def check_pages(report):
    """README says the versions of Python that `make help` says, and NETWORKS what tools/network needs."""
    readme, helped = here.read("README.md"), here.read("Makefile")
    python, packages = needs_of("tools/network")
    for word in (f"Python {version(python)} or later", *packages):
        report.note(word in here.read(NETWORKS), f"{NETWORKS}: it does not name {word}, which tools/network needs")
    for python in (LEAST, max(NEWER.values())):
        for name, text in (("README.md", readme), ("make help", helped)):
            is_there = re.search(rf"\b{re.escape(version(python))} or later", text)
            report.note(is_there, f"{name}: it does not say Python {version(python)} or later")
