"""Replicas as processes: where they listen, when they ended and how, and whether their files are right."""

import contextlib
import itertools
import os
import random
import signal
import socket
import subprocess
import threading
import time

from dev.lib import here, process
from dev.lib.networks import wrong_files

HOST = "127.0.0.1"
# A node that is stalled ends after a minute.
MINUTE = 75
# Processes are looked at so often.
LOOK_SECONDS = 0.004
# Ports that the system gives to nobody who asks for any, and how many of them a process takes for its own.
PORTS, OWN_PORTS = range(12_000, 32_000), 1_000

_lock = threading.Lock()


def own_ports():
    """Ports that no other process which uses this module takes, while this one holds a name of the system for them."""
    firsts = list(range(PORTS.start, PORTS.stop, OWN_PORTS))
    for first in random.Random(os.getpid()).sample(firsts, len(firsts)):
        held = socket.socket(socket.AF_UNIX)
        try:
            held.bind(f"\0nullsim-ports-{first}")
            return held, itertools.cycle(range(first, first + OWN_PORTS))
        except OSError:
            held.close()
    return None, itertools.cycle(PORTS)


_held, _numbers = own_ports()


def free_port():
    """A port of 127.0.0.1 at which nobody listens, another one each time."""
    while True:
        with _lock:
            port = next(_numbers)
        with contextlib.suppress(OSError), socket.create_server((HOST, port)):
            return port


def free_ports(network):
    """A port for each replica of a network."""
    return {key: free_port() for key in network.keys()}


def connected(port, seconds=20):
    """A connection to a port of 127.0.0.1, once somebody listens there."""
    until = time.monotonic() + seconds
    while True:
        try:
            return socket.create_connection((HOST, port), timeout=seconds)
        except OSError:
            if time.monotonic() > until:
                raise
            time.sleep(0.02)


def listener(port, seconds=20):
    """A socket that listens at a port of 127.0.0.1, and waits so long for each call."""
    made = socket.create_server((HOST, port), backlog=64)
    made.settimeout(seconds)
    return made


class Node:
    """A replica of a partition as a process, perhaps begun again. `ports` says where each replica is reached: a port of
    127.0.0.1, or an address and a port."""
    # What a child does before it becomes the program.
    prepare = None

    def __init__(self, network, key, folder, ports, before=(), further=("keep",)):
        self.network, self.key = network, key
        own = f"{key[0]}-{key[1]}"
        self.folder, self.out, self.errors, addresses = (
            os.path.join(folder, f"{name}{own}") for name in ("", "out-", "errors-", "addresses-"))
        os.makedirs(self.folder, exist_ok=True)
        places = {other: place if isinstance(place, tuple) else (HOST, place) for other, place in ports.items()}
        here.write(addresses, "".join(f"{p} {r} {host}:{port}\n" for (p, r), (host, port) in places.items()))
        words = ["node", network.path, self.folder, *map(str, key), addresses]
        self.words, self.times_begun = [*before, here.NULLSIM, *words, *further], 0
        self.begin()

    def begin(self):
        """Begins, or begins again with the same words."""
        with open(self.out, "wb") as out, open(self.errors, "wb") as errors:
            self.child = subprocess.Popen(self.words, stdin=subprocess.DEVNULL, stdout=out, stderr=errors,
                                          preexec_fn=self.prepare)
        self.begun, self.ended, self.is_late = time.monotonic(), None, False
        self.times_begun += 1

    def runs(self):
        """Whether it still runs. When it ended is noted."""
        if self.ended is None and self.child.poll() is not None:
            self.ended = time.monotonic()
        return self.ended is None

    def kill(self):
        """Ends it as a power cut does."""
        if self.runs():
            self.child.send_signal(signal.SIGKILL)
            self.child.wait()
            self.ended = time.monotonic()

    def end(self, seconds=MINUTE):
        """Awaits its end, and says its status: where it is late it is killed."""
        return end_all([self], seconds)[0]

    def status(self):
        return "late" if self.is_late else self.child.returncode

    def said(self):
        """What it printed on standard error."""
        return here.octets(self.errors)

    def ending(self, statuses):
        """What is wrong with its status, which is to be one of these, and its line."""
        status = self.status()
        if status in statuses and self.said() == process.LINES.get(status):
            return []
        return [f"node {self.key} ended with {status} after {self.ended - self.begun:.1f} s, {self.said()!r}"]

    def faults(self, wanted, statuses=(0, 7)):
        """What is not as it should be: its ending, or a file that is missing or not that of the one event list."""
        how = f"node {self.key} ended with {self.status()}"
        files = [f"{how}, and its file of {name} {what}" for name, what in self.wrong_files(wanted)]
        return self.ending(statuses) or files

    def wrong_files(self, wanted):
        return wrong_files(self.folder, self.network.ifaces(self.key[0]), wanted)


@contextlib.contextmanager
def beside_peer(network, key, folder, before=(), further=()):
    """A node of one of two partitions, beside its peer. Behind it both are killed."""
    ports = free_ports(network)
    pair = [Node(network, (1 - key[0], 0), folder, ports, further=further),
            Node(network, key, folder, ports, before, further)]
    try:
        yield pair[1]
    finally:
        for node in pair:
            node.kill()


def end_all(some, seconds=MINUTE):
    """Awaits the end of nodes, and says their statuses. Those that are late are killed."""
    until = time.monotonic() + seconds
    while any([node.runs() for node in some]) and time.monotonic() < until:
        time.sleep(LOOK_SECONDS)
    for node in some:
        node.is_late = node.runs()
        node.kill()
    return [node.status() for node in some]


def uncertified(network, some, workers=2):
    """What `certify` says but `certified` of what the first replicas left, and of what the second ones did, where all
    of them are done; and how often it said that."""
    faults, certified = [], 0
    for replica in network.replicas:
        own = [some.get(key) for key in network.keys() if key[1] == replica]
        if all(node and node.status() == 0 for node in own):
            done = process.nullsim("certify", network.path, workers, *(node.folder for node in own))
            is_well = done.status == 0 and done.out.startswith(b"certified\n")
            certified += is_well
            faults += [] if is_well else [f"what the replicas {replica} left is not certified: {process.ending(done)}"]
    return faults, certified


class Nodes:
    """All replicas of a network. Each reaches another at the port that `doors` has for both, or else at its own."""

    def __init__(self, network, folder, own=None, doors=None, further=("keep",)):
        own, doors = own or free_ports(network), doors or {}
        self.network, self.begun = network, time.monotonic()
        self.all, self.certified = {}, 0
        for key in network.keys():
            ports = {other: doors.get((key, other), port) for other, port in own.items()}
            self.all[key] = Node(network, key, folder, ports, further=further)

    def running(self):
        """Which still run."""
        return [key for key, node in self.all.items() if node.runs()]

    def until(self, moment):
        """Looks at all until this moment, or until all have ended: whether some run still."""
        while self.running():
            left = moment - time.monotonic()
            if left <= 0:
                return True
            time.sleep(min(LOOK_SECONDS, left))
        return False

    def end(self, seconds=MINUTE):
        """Awaits the end of all. Those that are late are killed."""
        end_all(list(self.all.values()), seconds)

    def statuses(self):
        return {key: node.status() for key, node in self.all.items()}

    def faults(self, wanted, statuses=(0, 7)):
        files = [fault for node in self.all.values() for fault in node.faults(wanted, statuses)]
        return files or self.all_certificate_faults()

    def all_certificate_faults(self):
        """What `certify` says of what is left; it is counted how often it says `certified`."""
        faults, certified = uncertified(self.network, self.all)
        self.certified += certified
        return faults

    def kill(self):
        for node in self.all.values():
            node.kill()
