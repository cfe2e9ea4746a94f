"""How tests call tools/network and nullsim."""

import contextlib
import importlib.util
import io
import os
import pathlib
import shutil
import subprocess
import sys
import tempfile
import unittest
from unittest import mock

from networks import command, making, spec, toml, topology, writing

DATA = os.path.join(os.path.dirname(os.path.abspath(__file__)), "data")
ROOT = os.path.abspath(f"{DATA}/../../../..")
EXAMPLES = os.path.join(ROOT, "examples")
NULLSIM = os.environ.get("NULLSIM", os.path.join(ROOT, "bin", "nullsim"))
SECONDS = 60

needs_nullsim = unittest.skipUnless(os.access(NULLSIM, os.X_OK), f"nullsim is not built ({NULLSIM})")


def needs_module(name):
    """Passes over a test where a package is missing."""
    is_there = importlib.util.find_spec(name)
    return unittest.skipUnless(is_there, f"the package {name} is not installed for {sys.executable}")


def needs_program(name):
    """Passes over a test where a program is missing."""
    return unittest.skipUnless(shutil.which(name), f"the program {name} is not installed")


def read(*parts):
    """The text of a file."""
    return pathlib.Path(*parts).read_text(encoding="utf-8")


def path_of(name):
    """Where the topology of examples/ is that has a name."""
    return os.path.join(EXAMPLES, f"{name}.toml")


def example(name):
    """The text of the topology of examples/ that has a name."""
    return read(path_of(name))


def without(module, *names):
    """Where some functions of a module find nothing, as where a package or a program is not installed."""
    return mock.patch.multiple(module, **{name: lambda *_: None for name in names})


def cases(name):
    """The cases of a file of the tests: the line behind `== `, and the text below it."""
    parts = ("\n" + read(DATA, name)).split("\n== ")[1:]
    split = [part.rstrip("\n").partition("\n") for part in parts]
    return [(line, text + "\n" if text else "") for line, _, text in split]


def call(*words):
    """What tools/network ends with: its status, its standard output and standard error."""
    said, beside = io.StringIO(), io.StringIO()
    with contextlib.redirect_stdout(said), contextlib.redirect_stderr(beside):
        try:
            status = command.main([str(word) for word in words])
        except SystemExit as end:
            status = end.code
    return status, said.getvalue(), beside.getvalue()


def made(text, name="x.spec.toml"):
    """The topology text of a SPEC's text."""
    found = spec.read(toml.Text(name, text))
    return writing.text(making.make(found, name), found.title)


def network_of(text, name="x.toml"):
    """The network of a topology text."""
    return topology.read(toml.Text(name, text))


class Folder(unittest.TestCase):
    """A test with a folder of its own."""

    def setUp(self):
        self.folder = tempfile.mkdtemp(prefix="network-test.")
        self.addCleanup(shutil.rmtree, self.folder)

    def file(self, name, content):
        """A file with a text, or with octets."""
        path = pathlib.Path(self.folder, name)
        path.write_bytes(content.encode() if isinstance(content, str) else content)
        return str(path)

    def done(self, *words):
        """What tools/network prints, which has to end well, and what it says beside."""
        status, said, beside = call(*words)
        self.assertEqual(status, 0, beside)
        return said, beside

    def refused(self, *words, status=3):
        """What tools/network says that refuses its input: one line, without the folder of the test."""
        found, said, beside = call(*words)
        self.assertEqual((found, said, beside.count("\n")), (status, "", 1), beside)
        return beside.replace(self.folder + "/", "")

    def nullsim(self, *words):
        """What nullsim prints, which has to end well."""
        ended = subprocess.run([NULLSIM, *words], capture_output=True, timeout=SECONDS, check=False)
        self.assertEqual(ended.returncode, 0, (words, ended.stdout[-500:], ended.stderr))
        return ended.stdout

    def accepted(self, text):
        """A topology text that nullsim accepts, as a file."""
        path = self.file("accepted.toml", text)
        self.nullsim("check", path)
        return path

    def measured(self, path, kind, measure):
        """A measure of all things of a kind, by their names, as `report TOPO csv` has it."""
        rows = [line.split(",") for line in self.nullsim("report", path, "csv").decode().splitlines()]
        return {name: int(value) for its, name, what, value in rows if (its, what) == (kind, measure)}

    def arrives(self, path):
        """Every packet of every source of a topology arrives; gives how many."""
        sent = self.measured(path, "source", "sent")
        self.assertEqual(sent, self.measured(path, "source", "delivered"))
        return sum(sent.values())

    def certified(self, path, whole, workers=2, replicas=1):
        """A topology is certified, and its files are those of the whole one in one partition; gives how many files."""
        found = []
        for text, *words in ((path, workers, replicas), (whole, 1, 1)):
            with tempfile.TemporaryDirectory(dir=self.folder) as folder:
                said = self.nullsim("run", text, folder, *map(str, words)).decode()
                self.assertTrue(said.startswith("certified\n"), said[:200])
                found.append({file.name: file.read_bytes() for file in pathlib.Path(folder).iterdir()})
        self.assertEqual(found[0].keys(), found[1].keys())
        self.assertEqual([name for name in found[0] if found[0][name] != found[1][name]], [])
        return len(found[0])
