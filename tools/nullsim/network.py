"""A network that is described: by a SPEC, by a file of another maker's, or by calls; and what became of its flows."""

import argparse
import csv
import os

from networks import importing, making, measured, spec, toml, writing

from nullsim import faults, records
from nullsim.said import Said, caller
from nullsim.topology import Topology


class Network(Topology):
    """A network, whose topology text is made when it is asked for. All that may be said of it is a key of a SPEC
    (`network make --help`): the words of these calls are those keys, and `from_` is `from`. `chosen` has lines of what
    was chosen for it."""

    def __init__(self, *, asked: str | None = None, **top):
        """An empty network; `top` are keys of the top of a SPEC, such as `stop`, `seed`, `mtu`, `weight`."""
        super().__init__("", asked)
        self._said, self._made = Said(caller(), {}), None
        self.chosen: list[str] = []
        for key, value in top.items():
            self._said.put(key, value, caller())

    @classmethod
    def _of(cls, said: Said, asked: str | None) -> "Network":
        made = cls(asked=asked)
        made._said = said
        return made

    @classmethod
    def from_spec(cls, path: str | os.PathLike, asked: str | None = None) -> "Network":
        """The network of a SPEC in a file."""
        with faults.told():
            return cls._of(Said.of_text(os.fspath(path), toml.octets(os.fspath(path))), asked)

    @classmethod
    def from_text(cls, text: str, name: str = "SPEC", asked: str | None = None) -> "Network":
        """The network of the text of a SPEC; `name` is said where a fault is placed."""
        with faults.told():
            return cls._of(Said.of_text(name, text), asked)

    @classmethod
    def imported(cls, path: str | os.PathLike, form: str | None = None, latencies: str | None = None,
                 largest: bool = False, asked: str | None = None) -> "Network":
        """The network of a GraphML, GML, Rocketfuel or BRITE file or a list of edges, with the traffic and defaults
        that `network import` writes. `form` says which, where the file does not; the rest is as for that tool."""
        words = argparse.Namespace(file=os.fspath(path), format=form, latencies=latencies, largest=largest)
        with faults.told():
            text, _ = importing.spec_text(words)
            return cls._of(Said.of_text(f"what was imported from {os.fspath(path)}", text), asked)

    def _add(self, array: str, keys: dict) -> "Network":
        self._said.add(array, {key.rstrip("_"): value for key, value in keys.items() if value is not None})
        self._made = None
        return self

    def add_node(self, name: str, kind: str | None = None, **keys) -> "Network":
        """A node; `kind` is "router" or "host"."""
        return self._add("node", {"name": name, "kind": kind, **keys})

    def add_router(self, name: str, hosts: int | None = None, **keys) -> "Network":
        """A router, with so many hosts behind it: NAME-h1 and so on."""
        return self.add_node(name, "router", hosts=hosts, **keys)

    def add_host(self, name: str, **keys) -> "Network":
        """A host."""
        return self.add_node(name, "host", **keys)

    def add_link(self, a: str, b: str, rate: int | str | None = None, delay: int | str | None = None,
                 queue: int | None = None, **keys) -> "Network":
        """A link between two nodes, by their names: bits per second, nanoseconds, packets."""
        return self._add("link", {"a": a, "b": b, "rate": rate, "delay": delay, "queue": queue, **keys})

    def add_group(self, kind: str, name: str, **keys) -> "Network":
        """Routers that are joined in a pattern, such as "ring", "grid" or "fat-tree"."""
        return self._add("group", {"kind": kind, "name": name, **keys})

    def add_flow(self, kind: str | None = None, from_: str | list[str] | None = None,
                 to: str | list[str] | None = None, **keys) -> "Network":
        """Traffic between nodes: "cbr", "echo", "poisson", "onoff" or "trace", or with `at` at listed times. Sizes are
        octets of data, rates bits per second with headers."""
        return self._add("flow", {"kind": kind, "from_": from_, "to": to, **keys})

    def with_values(self, values: dict, place: str | None = None) -> "Network":
        """Another network with other values, by keys such as "seed", "defaults.link.queue" or "flow.web.rate"; a member
        of an array is known by its number or name. A fault of them is placed where this is called, or at `place`."""
        with faults.told():
            return self._of(self._said.with_values(values, place or caller()), self._asked)

    def _making(self) -> tuple:
        """The SPEC and what was made of it, once."""
        if self._made is None:
            with faults.told():
                found = spec.read(self._said)
                made = making.make(found, self._said.name)
                self._made = found, made, writing.text(made, found.title)
                self.chosen = made.chosen
        return self._made

    def topology(self) -> str:
        """The text of the topology."""
        return self._making()[2]

    def flows(self) -> "records.Rows[records.Flow]":
        """What became of the packets of each flow, over all its sources (`network flows`)."""
        found, made, _ = self._making()
        sources, delays = (list(csv.DictReader(self.answer("report", *words).decode().splitlines()))
                           for words in (("csv", "delays"), ("delays",)))
        with faults.told():
            rows = measured.table(made.network, found.scale, self._said.name, sources, delays)
        return records.Rows(records.Flow, (records.typed(records.Flow, row) for row in rows))
