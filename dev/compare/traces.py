"""The comparison of traces: each set of topologies through nullsim and ns-3, interface by interface and packet by
packet; whether it sees what is wrong: networks that ns-3 gets otherwise than nullsim have to differ, and for no known
reason; and whether the trace files of runs of many workers are those of the one event list, as `verify` says."""

import collections
import copy
import functools
import itertools
import math
import operator
import os

from dev.compare import plain, programs, reasons
from dev.lib import here, networks, pcap, process, topologies

# What the bare loop says of a network that it does not simulate.
NOT_SIMULATED = "is not simulated"
# The name of the set of networks with one source.
ALONE = "alone"
# The status of `verify` where a trace file differs.
DIFFERS = 8
# Each change of examples/office.toml: where it is, and what becomes of the value there. Interface 8 is gw-wan.
CHANGES = {
    "later arrival": (("link", 0, "delay"), lambda delay: delay + 1),
    "slower link": (("link", 0, "rate"), lambda rate: rate - rate // 1000),
    "shorter queue": (("iface", 8, "queue"), lambda queue: queue - 1),
    "other octet": (("source", 0, "fill"), lambda _: 1),
    "longer packet": (("source", 0, "size"), lambda size: size + 1),
    "earlier end": (("stop",), lambda stop: stop // 2),
    "later source": (("source", 1, "start"), lambda start: start + 1),
}
# Of runs how many there are of each network, with so many workers; networks in 2, 4 and 16 partitions.
RUNS = 10
WORKERS = (2, 4)
NETWORKS = (("both", 200), ("ring-cut", 4), ("ring-cut", 16))


def records_in(folder, name):
    """The records of the trace file of an interface."""
    return pcap.records(here.octets(os.path.join(folder, f"{name}.pcap")))


class Difference:
    """The first difference at an interface: the number of the record, the time, and what each side has at that moment,
    which may be nothing: its next record is of a later time then."""

    def __init__(self, iface, ours, theirs):
        pairs = enumerate(itertools.zip_longest(ours, theirs, fillvalue=(math.inf, None)))
        self.iface, (self.number, pair) = iface, next((number, pair) for number, pair in pairs if pair[0] != pair[1])
        self.at = min(time for time, _ in pair)
        self.our_packet, self.their_packet = (packet if time == self.at else None for time, packet in pair)


class Compared:
    """What a comparison of two folders found: equal interfaces, records, and the earliest differences."""

    def __init__(self, names, our_folder, their_folder):
        self.ours, self.differences, self.records, self.equal = {}, [], 0, 0
        for name in names:
            ours, theirs = records_in(our_folder, name), records_in(their_folder, name)
            self.ours[name] = ours
            self.records += len(ours)
            self.equal += ours == theirs
            self.differences += [Difference(name, ours, theirs)] if ours != theirs else []
        self.differences.sort(key=lambda difference: difference.at)


class Tally:
    """What was found in a set."""

    def __init__(self, name, what):
        self.name, self.what = name, what
        self.topologies = self.equal = self.verified = self.ifaces = self.equal_ifaces = self.records = 0
        self.names, self.unknown = collections.defaultdict(list), []
        self.ties = self.tied = self.loops = 0

    def add(self, name, compared, found):
        self.topologies += 1
        self.equal += not compared.differences
        self.ifaces += len(compared.ours)
        self.equal_ifaces += compared.equal
        self.records += compared.records
        for why in found:
            self.names[why].append(name)


def write_traces(topology, folder, name, words):
    """The traces of a topology by a program, nullsim or another, in the new folder `name` of `folder`."""
    made, text = os.path.join(folder, name), os.path.join(folder, name + ".text")
    os.mkdir(made)
    if words[0] == here.NULLSIM:
        plain.write_toml(topology, text)
        programs.call([*words, text, made, "1", "1"])
    else:
        plain.write_plain(topology, text)
        programs.call([words[0], text, "--traces", made, *words[1:]])


def simulate(topology, folder, words, other=None):
    """nullsim's traces of a topology and those of another program, perhaps of another topology, compared."""
    write_traces(topology, folder, "ours", [here.NULLSIM, "run"])
    write_traces(other or topology, folder, "theirs", words)
    names = [iface["name"] for iface in topology["iface"]]
    return Compared(names, os.path.join(folder, "ours"), os.path.join(folder, "theirs"))


def is_verified(folder, compared):
    """Whether `verify` says of ns-3's trace files, as files of raw IP, what the comparison of records says: the first
    simulation in this folder."""
    made = os.path.join(folder, "raw")
    os.mkdir(made)
    for name in compared.ours:
        here.write(os.path.join(made, f"{name}.pcap"), pcap.raw(records_in(os.path.join(folder, "theirs"), name)))
    ended = process.nullsim("verify", os.path.join(folder, "ours.text"), made, seconds=programs.SECONDS)
    return ended.status == (DIFFERS if compared.differences else 0)


def reasons_of(topology, compared):
    """The reasons of the earliest differences, and those that have none."""
    node_of = {iface["name"]: iface["node"] for iface in topology["iface"]}
    found, unknown = set(), []
    # Those of the earliest moment: later ones may follow from them.
    for difference in itertools.takewhile(lambda one: one.at == compared.differences[0].at, compared.differences):
        node = node_of[difference.iface]
        arrived = [packet for name, records in compared.ours.items() if node_of[name] == node
                   for time, packet in records if time <= difference.at]
        why = reasons.reason(difference, arrived)
        found |= {why} if why else set()
        unknown += [] if why else [difference]
    return found, unknown


def try_topology(name, topology, tally):
    """Compares one topology, and counts and prints what is found."""
    with process.folder("compare") as folder:
        try:
            compared = simulate(topology, folder, [programs.NS3, "--places"])
            verified = is_verified(folder, compared)
        except process.Failed as failed:
            tally.topologies += 1
            tally.unknown.append(name)
            print(f"{tally.name}: {name}: {failed}: UNKNOWN", flush=True)
            return None
    found, unknown = reasons_of(topology, compared)
    tally.add(name, compared, found)
    tally.verified += verified
    if not verified:
        tally.unknown.append(name)
        print(f"{tally.name}: {name}: verify says otherwise of ns-3's files: UNKNOWN", flush=True)
    if compared.differences:
        first = compared.differences[0]
        print(f"{tally.name}: {name}: {compared.equal} of {len(compared.ours)} interfaces are equal; the first "
              f"difference is at {first.at} ns, {first.iface}: {', '.join(sorted(found))}", flush=True)
    for one in unknown:
        tally.unknown.append(name)
        ours, theirs = (packet.hex() if packet else "none" for packet in (one.our_packet, one.their_packet))
        print(f"  UNKNOWN at {one.at} ns, {one.iface}, record {one.number}: ours {ours}, theirs {theirs}")
    return compared


def try_ties(name, topology, tally):
    """Whether ns-3's own order of the events of one nanosecond gives other traces."""
    with process.folder("compare") as folder:
        compared = simulate(topology, folder, [programs.NS3])
    tally.tied += 1
    tally.ties += bool(compared.differences)
    if compared.differences:
        print(f"{tally.name}: {name}: ns-3's own order of ties gives other traces at "
              f"{len(compared.ours) - compared.equal} interfaces of {len(compared.ours)}", flush=True)


def try_loop(topology, tally):
    """Whether the bare loop's traces are equal too, where it simulates the topology whole."""
    with process.folder("compare") as folder:
        try:
            compared = simulate(topology, folder, [programs.LOOP])
        except process.Failed as failed:
            if NOT_SIMULATED in str(failed):
                return
            raise
    tally.loops += 1
    if compared.differences:
        tally.unknown.append("the bare loop")
        print(f"{tally.name}: the traces of the bare loop differ: UNKNOWN", flush=True)


def try_whole(label, topology, tally):
    """Compares a topology, and where it is equal also what ns-3's own order of ties and the bare loop make of it."""
    compared = try_topology(label, topology, tally)
    if compared and not compared.differences:
        try_ties(label, topology, tally)
        if tally.name == "generated":
            try_loop(topology, tally)


def try_parts():
    """Each source of the stored networks alone, each raw packet alone; then each network with all sources and packets
    that are equal alone."""
    alone = Tally(ALONE, "the same, of each network one source or one raw packet at a time")
    rest = Tally("rest", "the same, of each network all sources and raw packets that are equal alone")
    for name, topology in plain.networks():
        equal = []
        for part, single in plain.by_source(topology):
            compared = try_topology(f"{name} source {part[0]} packet {part[1]}", single, alone)
            if compared and not compared.differences:
                equal.append(part)
        try_whole(name, plain.with_parts(topology, equal), rest)
    return [alone, rest]


def set_table(tallies):
    yield ("| Topologies | Number | Equal | Interfaces | Equal | Records in our traces "
           "| Equal, but not with ns-3's own order of ties | `verify` says the same |")
    yield "|---|---|---|---|---|---|---|---|"
    for tally in tallies:
        counts = [tally.topologies, tally.equal, tally.ifaces, tally.equal_ifaces, tally.records]
        cells = [f"*{tally.name}*: {tally.what}", *(f"{count:,}" for count in counts)]
        yield f"| {' | '.join(cells)} | {tally.ties if tally.tied else ''} | {tally.verified:,} |"
    loops = sum(tally.loops for tally in tallies)
    if loops:
        yield from ("", f"The bare loop's traces of {loops} of the generated topologies are equal too; the others need "
                        "ICMP errors, which it has not.")


def reason_table(tallies):
    heads = ["Earliest difference", *(f"*{tally.name}*" for tally in tallies)]
    yield from (f"| {' | '.join(heads)} |", "|" + "---|" * len(heads))
    for name, words in reasons.REASONS.items():
        counts = [len(tally.names[name]) for tally in tallies]
        if any(counts):
            yield f"| **{name}**: {words} | " + " | ".join(str(count or "") for count in counts) + " |"


def name_table(tallies):
    """Which networks differ, but for those with one source: these are printed as they are compared."""
    yield from ("| Earliest difference | Networks |", "|---|---|")
    for tally in tallies:
        for why in reasons.REASONS if tally.name != ALONE else ():
            if tally.names[why]:
                names = ", ".join(name.removesuffix(".toml") for name in tally.names[why])
                yield f"| {why}, *{tally.name}* | {names} |"


def tables(tallies):
    """The tables of what was compared, as lines; `name_table` is printed alone."""
    yield from set_table(tallies)
    if any(tally.equal < tally.topologies for tally in tallies):
        yield from ("", *reason_table(tallies))


def every(paths):
    """Compares all sets, or the topologies of these files: the tallies."""
    tallies = []
    with process.folder("compare") as folder:
        files = [("files", "the files named", plain.of_files(paths))]
        for name, what, labelled in files if paths else plain.every(folder):
            tallies.append(Tally(name, what))
            for label, topology in labelled:
                try_whole(label, topology, tallies[-1])
    return tallies if paths else tallies + try_parts()


def changed(topology, way, new):
    """A topology whose value at the end of a way is another."""
    made = copy.deepcopy(topology)
    table = functools.reduce(operator.getitem, way[:-1], made)
    table[way[-1]] = new(table.get(way[-1]))
    return made


def unseen():
    """The changes that the comparison does not see: a changed network has to differ, without a known reason."""
    found, topology = [], plain.read(here.example("office"))
    for name, change in CHANGES.items():
        with process.folder("compare") as folder:
            compared = simulate(topology, folder, [programs.NS3], changed(topology, *change))
        found += [] if compared.differences and reasons_of(topology, compared)[1] else [name]
    return found


def differing(network, workers):
    """How many files of a run are not those of the one event list."""
    with process.folder("compare") as made:
        programs.call([here.NULLSIM, "run", network.path, made, str(workers), "1"])
        if process.nullsim("verify", network.path, made).status == 0:
            return 0
        return sum(process.nullsim("verify", network.path, made, name).status != 0 for name in network.partition_of)


def run_table():
    """Whether all files were equal, and the lines of the table."""
    rows, wrong = [["Network", "Partitions", "Interfaces",
                    *(f"{RUNS} runs of {workers} workers: files that differ" for workers in WORKERS)]], 0
    for kind, count in NETWORKS:
        with process.folder("compare") as folder:
            network = networks.Network(topologies.generate(kind, os.path.join(folder, "topology.toml"), count))
            found = [sum(differing(network, workers) for _ in range(RUNS)) for workers in WORKERS]
        rows.append([f"`{kind}={count}`", len(network.partitions), len(network.partition_of), *found])
        wrong += sum(found)
    head, *lines = (f"| {' | '.join(map(str, row))} |" for row in rows)
    return not wrong, [head, "|" + "---|" * len(rows[0]), *lines]
