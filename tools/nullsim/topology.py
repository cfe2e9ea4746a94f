"""A topology, and what the program says of it: its check, and what was measured of its run."""

import csv
import dataclasses
import io
import os
import re
import tempfile
import tomllib
from collections.abc import Callable
from dataclasses import dataclass

from networks import captures, toml, units
from networks import program as programs

from nullsim import faults, program, records, runs
from nullsim.records import Rows

WAY = re.compile(r"([^<> ]+)([<>])(\d+)")
COUNT = re.compile(r"([a-z][a-z ]*) (\d+)")


@dataclass(frozen=True)
class Check:
    """What `nullsim check` says: how many there are of what, and what may be a mistake."""

    counts: dict[str, int]
    remarks: list[str]


@dataclass(frozen=True)
class Report:
    """What was measured of a whole run: tables of interfaces, of counters of nodes, and of sources."""

    interfaces: Rows[records.Interface]
    counters: Rows[records.Counter]
    sources: Rows[records.Source]

    def interface(self, name: str) -> records.Interface:
        """That of one interface."""
        return next(row for row in self.interfaces if row.name == name)


class Topology:
    """A topology text. Each answer runs the program, which is as asked, or as `nullsim.program` finds it."""

    def __init__(self, text: str, asked: str | None = None):
        self._text, self._asked, self._kept = text, asked, {}

    @classmethod
    def read(cls, path: str | os.PathLike, asked: str | None = None) -> "Topology":
        """The topology of a file."""
        with faults.told():
            return cls(toml.octets(os.fspath(path)), asked)

    def topology(self) -> str:
        """The text."""
        return self._text

    def save(self, path: str | os.PathLike) -> str:
        """Writes the text to a file, and gives the path."""
        with open(path, "w", encoding="utf-8") as file:
            file.write(self.topology())
        return os.fspath(path)

    def answer(self, word: str, *words, tell: Callable[[records.Progress], None] | None = None) -> bytes:
        """What the program prints with a word about this topology and these further words; each is asked once."""
        key = (self.topology(), word, words)
        if key not in self._kept:
            with tempfile.TemporaryDirectory(prefix="nullsim.") as folder, tempfile.TemporaryFile() as out:
                path = Topology.save(self, os.path.join(folder, "x.toml"))
                program.call([program.program(self._asked), word, path, *map(str, words)], out, tell)
                out.seek(0)
                self._kept = {old: kept for old, kept in self._kept.items() if old[0] == key[0]}
                self._kept[key] = out.read()
        return self._kept[key]

    def _rows(self, kind: type, word: str, *words, tell=None) -> Rows:
        """The rows of comma-separated values that a word prints."""
        text = self.answer(word, *words, tell=tell).decode()
        return Rows(kind, (records.typed(kind, row) for row in csv.DictReader(io.StringIO(text))))

    def check(self) -> Check:
        """What there is in the topology, and what may be a mistake. `Refused` is raised with the first mistake."""
        lines = self.answer("check").decode().splitlines()
        remarks = [line.removeprefix("remark: ") for line in lines if line.startswith("remark: ")]
        counts = {}
        for line in lines[:len(lines) - len(remarks)]:
            counts.update({name.strip(): int(number) for name, number in COUNT.findall(line)})
        return Check(counts, remarks)

    def report(self, tell: Callable[[records.Progress], None] | None = None) -> Report:
        """What was measured of the whole run. `tell` is called once a second with how far it is."""
        text = self.answer("report", "csv", tell=tell).decode()
        found = programs.Report(text, tomllib.loads(self.topology()).get("source", []))
        ifaces = (records.typed(records.Interface, {"name": name, **own})
                  for name, own in found.measures.get("interface", {}).items())
        counters = (records.Counter(name, counter, count) for name, own in found.measures.get("node", {}).items()
                    for counter, count in own.items())
        none = dict.fromkeys((field.name for field in dataclasses.fields(records.Source)), 0)
        sources = (records.typed(records.Source, {**none, **row}) for row in found.sources)
        return Report(Rows(records.Interface, ifaces), Rows(records.Counter, counters), Rows(records.Source, sources))

    def delays(self) -> Rows[records.Delay]:
        """How the delays of each source are spread."""
        return self._rows(records.Delay, "report", "delays")

    def series(self, step: int | str) -> Rows[records.Step]:
        """What each interface does in each step of time (nanoseconds, or a text such as "10 ms")."""
        return self._rows(records.Step, "series", nanoseconds(step))

    def series_of_sources(self, step: int | str) -> Rows[records.SourceStep]:
        """What becomes of the packets of each source in each step of time."""
        return self._rows(records.SourceStep, "series", nanoseconds(step), "flows")

    def packets(self, source: int) -> Rows[records.Packet]:
        """What became of each packet of a source, by its number, in the order in which they ended."""
        text = self.answer("packets", source).decode()
        return Rows(records.Packet, map(packet_of, csv.DictReader(io.StringIO(text))))

    def trace(self, interface: str) -> Rows[records.Trace]:
        """The packets that arrived at an interface and that began to leave by it, in the order of the trace."""
        return trace_of(interface, io.BytesIO(self.answer("one", interface)))

    def run(self, folder: str | os.PathLike, partitions: int | None = None, workers: int | None = None,
            replicas: int = 1, keep: bool = False,
            tell: Callable[[records.Progress], None] | None = None) -> "runs.Run":
        """Runs the partitions at once, with the trace files of all interfaces in a folder; it is certified, or `Failed`
        is raised. `partitions` is how many `network partition` cuts; without it those of the topology stay, or of one
        in one partition as many are cut as pay. `keep` leaves files for `nullsim certify`."""
        return runs.run(self, os.fspath(folder), partitions, workers, replicas, keep, tell)

    def program(self) -> str:
        """The program that answers."""
        return program.program(self._asked)


def nanoseconds(time: int | str) -> int:
    """A time as whole nanoseconds."""
    found = units.quantity(time, units.TIMES) if isinstance(time, str) else time
    if not isinstance(found, int) or isinstance(found, bool):
        raise faults.Refused(faults.REFUSED, "", f'{time!r} is no time: write whole nanoseconds, or a text such as '
                                                 '"5 ms"')
    return found


def packet_of(row: dict) -> records.Packet:
    """A packet of a row of `packets`, whose fields are empty where nothing is."""
    reason, place, end = (row[key] or None for key in ("reason", "place", "ended_nanoseconds"))
    way = tuple(records.Arrival(name, sign == ">", int(at)) for name, sign, at in WAY.findall(row["way"]))
    return records.Packet(int(row["packet"]), int(row["sent_nanoseconds"]), row["outcome"], reason, place,
                          None if end is None else int(end), way)


def trace_of(name: str, file) -> Rows[records.Trace]:
    """The packets of a trace file."""
    with faults.told():
        found = [records.Trace(record.at, record.octets) for record in captures.records(name, file)]
    return Rows(records.Trace, found)
