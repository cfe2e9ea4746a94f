"""A run over all nodes: they are started, shown, started again where they were lost, and certified at the end."""

import os
import secrets
import subprocess
import time
from dataclasses import dataclass

from launching import hosts
from launching.nodes import DONE, FILE, STALLED, Node

TURN_SECONDS = 0.1
# A node that was lost is started again so many times, after so many seconds each.
AGAIN, AGAIN_SECONDS = 5, 2
# So long nodes may take to end when they are told to.
END_SECONDS = 5


@dataclass
class Job:
    """What all nodes have in common: the folder, the name of a file in it by which a host knows that it shares it, the
    octets of the topology and of the addresses, the program, and the place."""

    folder: str
    token: str
    text: bytes
    list: bytes
    program: str
    place: object


class Run:
    """The nodes of a topology. `said` is what happened, in lines."""

    def __init__(self, network, text, folder, place, port, replicas, program):
        partitions = range(max(node.partition for node in network.nodes) + 1)
        self.stop, self.place, self.program = network.stop, place, program
        where = hosts.shared_out(place.hosts, partitions, replicas, port)
        lines = "".join(f"{partition} {replica} {host.address}:{number}\n"
                        for (partition, replica), (host, number) in where.items())
        os.makedirs(folder, exist_ok=True)
        job = Job(os.path.abspath(folder), f".launch-{secrets.token_hex(8)}", text, lines.encode(), program, place)
        self.job = job
        self.nodes = {key: Node(job, key, *at) for key, at in where.items()}
        self.lost_at, self.said, self.begun = {}, [], time.monotonic()

    def write(self):
        """Writes the topology, the addresses and the token into the folder, for hosts that share it."""
        for name, octets in (("topology.toml", self.job.text), ("addresses", self.job.list), (self.job.token, b"")):
            with open(os.path.join(self.job.folder, name), "wb") as file:
                file.write(octets)
        for node in self.nodes.values():
            # What an earlier run left there is none of this one's.
            for name in os.listdir(node.folder) if os.path.isdir(node.folder) else ():
                if name.endswith((".pcap", ".known")):
                    os.remove(os.path.join(node.folder, name))

    def seconds(self):
        return time.monotonic() - self.begun

    def share(self, key):
        """How much of the simulated time is safe for a node, in percent."""
        node = self.nodes[key]
        return 100 if node.status == DONE else 100 * node.figures.get("safe", 0) // self.stop

    def perform(self, view):
        """Runs all nodes to their end: raises Refused with what failed."""
        self.write()
        try:
            for node in self.nodes.values():
                node.begin()
            while not self.look():
                view.show(self)
                time.sleep(TURN_SECONDS)
            view.show(self, at_once=True)
        finally:
            self.end()
            os.remove(os.path.join(self.job.folder, self.job.token))

    def look(self):
        """Looks at all nodes, and starts again those that were lost: whether all have ended."""
        for key, node in self.nodes.items():
            self.said += node.remarks
            node.remarks = []
            if key in self.lost_at:
                if time.monotonic() - self.lost_at[key] >= AGAIN_SECONDS:
                    del self.lost_at[key]
                    node.begin()
            elif node.was_lost() or self.holds_its_port(node):
                self.lose(key, node)
            elif not node.runs() and node.status not in (DONE, STALLED) and not self.can_do_without(key):
                raise hosts.Refused(node.reason())
        return not self.lost_at and not any(node.runs() for node in self.nodes.values())

    def holds_its_port(self, node):
        """Whether a node that was begun again found its port held, as by one to which the way was lost."""
        return node.status == FILE and node.times_begun > 1

    def lose(self, key, node):
        """Has a node that was lost begin again soon, with nothing, while its peers run."""
        if node.times_begun > AGAIN:
            if self.can_do_without(key):
                return
            raise hosts.Refused(node.reason())
        own = node.errors[-1] if node.errors else "its process was lost"
        self.said.append(f"{self.seconds():4.0f} s: {node.name()}: {own}; it is begun again, with nothing")
        self.lost_at[key] = time.monotonic()

    def can_do_without(self, key):
        """Whether the other replica of the same partition runs on or is done."""
        sister = self.nodes.get((key[0], 1 - key[1]))
        return sister is not None and (sister.runs() or sister.status == DONE)

    def end(self):
        """Ends all that still run."""
        for node in self.nodes.values():
            node.end()
        until = time.monotonic() + END_SECONDS
        while any(node.runs() for node in self.nodes.values() if node.child) and time.monotonic() < until:
            time.sleep(TURN_SECONDS)
        for node in self.nodes.values():
            node.kill()

    def folders(self):
        """The folders of the nodes that were done, those of the first replicas before the others."""
        keys = sorted(self.nodes, key=lambda key: (key[1], key[0]))
        return [self.nodes[key].folder for key in keys
                if os.path.exists(os.path.join(self.nodes[key].folder, f"{key[0]}-{key[1]}.known"))]

    def certify(self, workers):
        """Has the program certify what the nodes left: the lines that it prints."""
        held = {int(os.path.basename(folder).split("-")[0]) for folder in self.folders()}
        for (partition, _), node in self.nodes.items():
            if partition not in held:
                raise hosts.Refused(node.reason())
        words = [self.program, "certify", os.path.join(self.job.folder, "topology.toml"), str(workers),
                 *self.folders()]
        ended = subprocess.run(words, capture_output=True, text=True, check=False)
        if ended.returncode:
            raise hosts.Refused(f"the nodes are done, but not certified: {ended.stderr.strip()}: docs/RUNNING.md, "
                                "\"When it fails\", says what to do")
        return ended.stdout
