"""Networks whose partitions run as processes, and the trace files that the one event list writes of them."""

import os

from dev.lib import here, process, topologies

# Behind topologies, which says so where Python has it not.
import tomllib

# A network has many interfaces: of what `all` writes so many files are compared with those of `one`.
COMPARED = 8


def toml_of(path):
    """What a topology text says."""
    with open(path, "rb") as file:
        return tomllib.load(file)


def ifaces_of(path):
    """The names of the interfaces of a topology."""
    return [iface["name"] for iface in toml_of(path).get("iface", [])]


class Network:
    """What a topology says of its partitions, each of which has so many replicas."""

    def __init__(self, path, replicas=1):
        text = toml_of(path)
        self.path, self.replicas, self.stop = path, range(replicas), text["stop"]
        places = {node["name"]: node["partition"] for node in text["node"]}
        self.partition_of = {iface["name"]: places[iface["node"]] for iface in text["iface"]}
        self.partitions = sorted(set(places.values()))
        # A partition has the name of its first node.
        self.names = [next(name for name, place in places.items() if place == own) for own in self.partitions]
        ends = [sorted((self.partition_of[link["a"]], self.partition_of[link["b"]])) for link in text["link"]]
        self.joints = sorted({(a, b) for a, b in ends if a != b})

    def keys(self):
        return [(partition, replica) for partition in self.partitions for replica in self.replicas]

    def pairs(self):
        """Who calls whom: replicas of the partition with the lesser number call those of the other."""
        return [((a, x), (b, y)) for a, b in self.joints for x in self.replicas for y in self.replicas]

    def peers(self, key):
        """The replicas with which this one exchanges frames."""
        return [other for pair in self.pairs() if key in pair for other in pair if other != key]

    def ifaces(self, partition):
        return [name for name, place in self.partition_of.items() if place == partition]


def made(folder, name, text):
    """A topology text as a file: its path."""
    return here.write(os.path.join(folder, f"{name}.toml"), text)


def small_grid(folder, packets=60):
    """A grid of 64 routers cut in 4: some 250 windows of 32 channels."""
    return made(folder, f"grid-{packets}", topologies.grid(packets, stop=50_000 * packets + 500_000, cuts=(2, 2)))


def two_hosts(folder, packets):
    """Two hosts in two partitions, one of which sends to the other."""
    return made(folder, "one-way", topologies.one_way(packets))


def one_of(path, name):
    """The octets that `one` writes."""
    return process.printed("one", path, name, seconds=None)


def wanted_of(path):
    """The octets of each interface's file, which `all` writes, and of which some are compared with those of `one`."""
    with process.folder() as folder:
        process.printed("all", path, folder, seconds=None)
        wanted = traces_in(folder)
    for name in sorted(wanted, key=lambda name: -len(wanted[name]))[:COMPARED]:
        if one_of(path, name) != wanted[name]:
            raise process.Failed(f"{path}: what all and one write of {name} differs")
    return wanted


def traces_in(folder):
    """The octets of each trace file of a folder that has its name, by interface."""
    names = [name.removesuffix(".pcap") for name in os.listdir(folder) if name.endswith(".pcap")]
    return {name: here.octets(os.path.join(folder, f"{name}.pcap")) for name in names}


def wrong_files(folder, names, wanted):
    """Which files of a folder are missing or others than those of the one event list: (name, what)."""
    found = traces_in(folder)
    return [(name, "differs" if name in found else "is missing") for name in names if found.get(name) != wanted[name]]


def faults_of_folder(folder, wanted, old=None, is_done=False):
    """What is wrong with the files of a folder: a name that is none of a trace file or its part; a final name with
    octets that are neither those of the one event list nor the old ones; where all is done, a final name that is
    missing or old, or a part."""
    faults = []
    for entry in sorted(os.listdir(folder)):
        name, part = entry.partition(".pcap")[0], ".pcap.part-" in entry
        if name not in wanted or not (part or entry.endswith(".pcap")):
            faults.append(f"{entry} is no file of the program")
        elif part:
            faults += [f"{entry} is left"] if is_done else []
        elif os.path.isfile(os.path.join(folder, entry)):
            found = here.octets(os.path.join(folder, entry))
            if found != wanted[name] and (is_done or found != old):
                faults.append(f"{entry} has {len(found)} octets, and is not what one writes")
    missing = [name for name in wanted if is_done and not os.path.exists(os.path.join(folder, f"{name}.pcap"))]
    return faults + [f"{name}.pcap is missing" for name in missing]


def fill(folder, names, octets):
    """Files with these final names, as of an earlier run."""
    for name in names:
        here.write(os.path.join(folder, f"{name}.pcap"), octets)
