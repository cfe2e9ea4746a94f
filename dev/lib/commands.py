"""Commands as a user types them: the folder in which they run, and what they need."""

import contextlib
import os
import re
import shutil

from dev.lib import here, process

TOOLS = ("network", "launch", "plot", "page")
# Programs that a reader may not have.
OTHERS = ("tcpdump", "tshark", "dot")
# What a command calls that is not named in it: partitions are shown as METIS cuts them.
CALLED = {"network partition": "gpmetis"}
SECONDS = 120
# What is printed where nothing can be drawn.
LACKS_MATPLOTLIB = re.compile("matplotlib is missing|needs matplotlib")


@contextlib.contextmanager
def place(name):
    """A folder with the files of examples/, and the environment for its commands: the program as `nullsim`, the tools
    by their names, and the Python package."""
    with process.folder(name) as folder, process.folder(name) as programs:
        os.symlink(here.NULLSIM, os.path.join(programs, "nullsim"))
        for tool in TOOLS:
            os.symlink(here.path("tools", tool), os.path.join(programs, tool))
        for example in here.files("examples"):
            shutil.copy(example, folder)
        yield folder, {**os.environ, "PATH": f"{programs}:{os.environ['PATH']}", "LC_ALL": "C",
                       "PYTHONPATH": here.path("tools"), "PYTHONDONTWRITEBYTECODE": "1"}


def ended(command, folder, environment, **how):
    """How a command ended that was run by bash, or None where something is not installed that it needs."""
    named = [name for name in OTHERS if re.search(rf"\b{name}\b -", command)]
    named += [name for words, name in CALLED.items() if words in command]
    if not all(map(shutil.which, named)):
        return None
    found = process.call(["bash", "-c", command], SECONDS, cwd=folder, env=environment, **how)
    printed = (found.out + (found.errors or b"")).decode(errors="replace")
    return None if LACKS_MATPLOTLIB.search(printed) else found
