"""Runs in partitions, which are certified, and their trace files."""

import os
import tempfile
from collections.abc import Callable
from dataclasses import dataclass

from networks import errors, limits, partition, toml, traffic
from networks import topology as topologies

from nullsim import faults, program, records, topology

# Workers do what the thread of a partition leaves: one is enough where each processor has a partition.
WORKERS = (1, 2)


@dataclass(frozen=True)
class Run:
    """A run that was certified: its folder, how many partitions and workers it had, and of each interface how many
    packets its trace has, and octets its trace file."""

    folder: str
    partitions: int
    workers: int
    packets: dict[str, int]
    octets: dict[str, int]

    def trace(self, interface: str) -> "records.Rows[records.Trace]":
        """The packets of a trace file of the folder."""
        path = os.path.join(self.folder, f"{interface}.pcap")
        with open(path, "rb") as file:
            return topology.trace_of(path, file)


def processors() -> int:
    """How many processors this process may use."""
    return len(os.sched_getaffinity(0))


def pays(network: "topologies.Network") -> bool:
    """Whether the partitions have more events than channels in a window as long as the least lookahead."""
    nodes, found = network.nodes, traffic.expected(network)
    cut = [link for link, (one, other) in zip(network.links, network.pairs())
           if nodes[one].partition != nodes[other].partition]
    window = min(map(traffic.lookahead, cut), default=network.stop)
    return sum(found.packets) * window >= network.stop * 2 * len(cut)


def cut(text: str, partitions: int | None) -> tuple[str, int]:
    """A topology text in so many partitions, and how many those are. Without a number those of the text stay; one in
    one partition is cut into as many as there are processors, or fewer, until a window has more events than there are
    channels. Where nothing that cuts is installed it stays in one."""
    read = toml.Text("topology", text)
    with faults.told():
        network = topologies.read(read)
        own = max((node.partition for node in network.nodes), default=0) + 1
        if partitions is not None:
            return (partition.chosen(read, partitions)[0], partitions) if partitions != own else (text, own)
        for count in range(min(processors(), len(network.nodes), limits.PARTITIONS), own, -1) if own == 1 else ():
            try:
                made = partition.chosen(read, count)[0]
            except (errors.Lacking, errors.Refused):
                break
            if pays(topologies.read(toml.Text("topology", made))):
                return made, count
    return text, own


def run(of: "topology.Topology", folder: str, partitions: int | None, workers: int | None, replicas: int, keep: bool,
        tell: Callable[[records.Progress], None] | None) -> Run:
    """Runs the partitions of a topology at once (Topology.run)."""
    text, count = cut(of.topology(), partitions)
    chosen = workers or WORKERS[count * replicas < processors()]
    os.makedirs(folder, exist_ok=True)
    with tempfile.TemporaryDirectory(prefix="nullsim.") as place, tempfile.TemporaryFile() as out:
        path = os.path.join(place, "x.toml")
        with open(path, "w", encoding="utf-8") as file:
            file.write(text)
        words = ["run", path, folder, str(chosen), str(replicas), *(["keep"] if keep else [])]
        program.call([of.program(), *words], out, tell)
        out.seek(0)
        lines = [line.split() for line in out.read().decode().splitlines()[1:]]
    return Run(folder, count, chosen, {line[1]: int(line[3]) for line in lines},
               {line[1]: int(line[5]) for line in lines})
