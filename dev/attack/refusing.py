"""Refuses calls of a program one at a time, by a small library that is loaded before the C library (refuse.c)."""

import os
import shutil

from dev.lib import here, process, script


class Refusing:
    """Refuses calls in a room: a folder for the library, for what the calls make, and for the mark of a refusal."""

    def __init__(self, room):
        if not shutil.which("cc"):
            script.passed_over("there is no C compiler, cc")
        self.shim, self.mark = os.path.join(room, "refuse.so"), os.path.join(room, "refused")
        self.files = os.path.join(room, "files")
        source = here.path("dev", "attack", "refuse.c")
        process.output("cc", "-O2", "-shared", "-fPIC", "-o", self.shim, source, "-ldl")

    def call(self, words, variable, which, **how):
        """How a command ended of which this call was refused, or None where it made no such call. The folder `files`
        is new and empty then."""
        shutil.rmtree(self.files, ignore_errors=True)
        os.mkdir(self.files)
        if os.path.exists(self.mark):
            os.remove(self.mark)
        environment = {**os.environ, "LD_PRELOAD": self.shim, variable: str(which), "REFUSED": self.mark}
        ended = process.call(words, env=environment, **how)
        return ended if ended.status is None or os.path.exists(self.mark) else None
