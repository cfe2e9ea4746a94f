#!/usr/bin/env python3
"""Writes a topology for a measurement or an attack to standard output.

What each kind is, with how many packets where no number is given:

- line: 64 routers in a line; 15,900 packets of 100 octets from one end to the other.
- grid, large: 8 by 8 routers, a flow of 2,000 packets of 228, or 1,500, octets from each to the one across.
- star: 32 hosts that send packets of 528 octets to one over a link that is too slow: most are dropped.
- line-1000, ring-1000, grid-1000, star-1000: 64 routers in a line or a ring; 16 by 16, with flows from two sides to the
  sides across; 32 hosts that send twice what the link to the last one takes. A million events, packets of 1,000 octets.
- mixed: grid with links of 100 Mbit/s to 10 Gbit/s and of 1 us to 10 ms; a quarter of the packets is dropped.
- routes; many: 1,024 routers with 64 routes and a source each; 1,024 sources at one host.
- hub, spread: 256 hosts that send to a hub over links with delays of 1 ms, so that arrivals come in the order of their
  keys; or of 1 us to 1 s in equal ratios.
- grid-far, grid-near: 16 by 16 routers with links of 1 ms, or 10 us; a million packet-hops of 1,000 octets.
- line-cut, grid-cut, ring-cut: the line, the grid or a ring in NUMBER partitions. both: four routers in a ring, two in
  each of two partitions.
- nulls, one-way: a host in each of two partitions: NUMBER null messages each way in turn; or packets of 100 octets one
  way.
- limits: at the limits of nodes, interfaces, routes, sources, partitions and channels; 4.5 MB of text."""

import os
import pathlib
import sys

if sys.version_info < (3, 11):
    sys.exit(f"this needs Python 3.11 or later, and {sys.executable} is {sys.version.split()[0]}")
sys.path.insert(0, os.path.abspath(f"{__file__}/../../../tools"))

from networks import writing
from networks.limits import HEADERS
from networks.topology import Iface, Link, Network, Node, Route, Source

GIGABIT = 1_000_000_000
# The stop of a run that ends by itself.
LATE = 10 ** 12


class Net(Network):
    """Nodes, links and flows by names of nodes; routes from every node by a shortest path to each node reached."""

    def __init__(self):
        super().__init__(LATE, 1_500)
        # For each node its number, its first address, and the interface that leads to each neighbour.
        self.number, self.address, self.next = {}, {}, {}

    def node(self, name, kind="router", partition=0):
        self.number[name], self.next[name] = len(self.nodes), {}
        self.nodes.append(Node(name, kind, partition, [9]))

    def routers(self, names, partition_of=lambda number: 0):
        """Routers in partitions by their number."""
        for number, name in enumerate(names):
            self.node(name, partition=partition_of(number))

    def link(self, a, b, rate=GIGABIT, delay=1_000):
        prefix, first = 10 << 24 | len(self.links) << 8, len(self.ifaces)
        for node, far, address in ((a, b, prefix + 1), (b, a, prefix + 2)):
            name = f"{node}-{len(self.next[node])}"
            self.address.setdefault(node, address)
            self.next[node][far] = len(self.ifaces)
            self.ifaces.append(Iface(name, self.number[node], address, 64))
        self.links.append(Link(first, first + 1, rate, delay))

    def route(self, node, target, via):
        self.routes.append(Route(self.number[node], self.address[target], 32, via))

    def reach(self, target):
        """Routes of every node to the first address of a node, by breadth-first search: the name of the node."""
        seen, reached = {target}, [target]
        for here in reached:
            fresh = [there for there in self.next[here] if there not in seen]
            seen.update(fresh)
            reached += fresh
            for there in fresh:
                self.route(there, target, self.next[there][here])
        return target

    def flow(self, node, target, octets, start, interval, count):
        """Packets of so many octets from a node to the first address of another."""
        self.sources.append(Source("cbr", self.number[node], self.address[target], sport=1000, dport=9,
                                   size=octets - HEADERS, start=start, interval=interval, count=count))

    def text(self, stop=LATE):
        arrays = "\n".join(writing.array(*it) for it in writing.tables(self).items())
        return f"format = 1\nstop = {stop}\nmtu = {self.mtu}\n{arrays}\n"


def line(packets=15_900, octets=100, interval=4_000, routers=64, stop=LATE, partitions=1):
    """Packets along a line of routers, from one end to the other; the line is cut into parts of equal length."""
    net, names = Net(), [f"r{number}" for number in range(routers)]
    net.routers(names, lambda number: number * partitions // routers)
    for name, after in zip(names, names[1:]):
        net.link(name, after)
    net.flow(names[0], net.reach(names[-1]), octets, 0, interval, packets)
    return net.text(stop)


def ring(packets=245, octets=lambda number: 1_000, routers=64, rate=GIGABIT, delay=10_000, stop=LATE, partitions=1,
         gap=1_000, interval=400_000):
    """Flows from each router of a ring to the one across; the ring is cut into parts of equal length."""
    net, names = Net(), [f"r{number}" for number in range(routers)]
    net.routers(names, lambda number: number * partitions // routers)
    for number, name in enumerate(names):
        net.link(name, names[(number + 1) % routers], rate, delay)
    for number, name in enumerate(names):
        target = net.reach(names[(number + routers // 2) % routers])
        net.flow(name, target, octets(number), gap * number, interval, packets)
    return net.text(stop)


def cut_ring(partitions=64):
    """A ring with a partition for each router, and two channels for each link: few packets, many null messages."""
    return ring(routers=partitions, delay=1_000_000, stop=200_000_000, partitions=partitions)


def both(packets=5):
    """Four routers in a ring, two in each of two partitions: two links join these, and each router sends across."""
    return ring(packets, lambda number: HEADERS + 20 * number + 1, 4, 8 * 10**6, 10**6, 2 * 10**7, 2, 10**5, 1_500_000)


def grid(packets=2_000, octets=228, interval=50_000, side=8, links=lambda *_: (GIGABIT, 10_000), is_whole=True,
         stop=LATE, cuts=(1, 1)):
    """Flows from the routers of a grid, or of two edges, to those across; it is cut into so many by so many parts.
    `links` gives the rate and the delay of each link by its number and how many there are."""
    net, (rows, columns) = Net(), cuts
    places = [(x, y) for x in range(side) for y in range(side)]
    for x, y in places:
        net.node(f"g{x}-{y}", partition=x * rows // side * columns + y * columns // side)
    for x, y in places:
        for u, v in ((x + 1, y), (x, y + 1)):
            if u < side and v < side:
                net.link(f"g{x}-{y}", f"g{u}-{v}", *links(len(net.links), 2 * side * (side - 1)))
    for x, y in places:
        if is_whole or 0 in (x, y):
            target = net.reach(f"g{side - 1 - x}-{side - 1 - y}")
            net.flow(f"g{x}-{y}", target, octets, 1_000 * (x * side + y), interval, packets)
    return net.text(stop)


# How many by how many parts a grid is cut into, by their number.
CUTS = {1: (1, 1), 2: (1, 2), 4: (2, 2), 8: (2, 4), 16: (4, 4)}


def edge_grid(partitions, delay):
    """Routers at two edges of a grid of 16 by 16 send packets of 1,000 octets across: some million packet-hops."""
    return grid(708, 1_000, 100_000, 16, lambda *_: (GIGABIT, delay), False, 110_000_000, CUTS[partitions])


def star(packets=20_000, octets=528, interval=60_000, leaves=32, delay=lambda part: 1_000, gap=100, has_sink=True):
    """Hosts around a hub send to it, or to a host behind too slow a link; `delay` gives each host's link its delay."""
    net, target = Net(), "sink" if has_sink else "hub"
    net.node("hub")
    if has_sink:
        net.node("sink", "host")
        net.link("hub", "sink", 100_000_000)
    for number in range(leaves):
        net.node(f"h{number}", "host")
        net.link(f"h{number}", "hub", GIGABIT, delay(number / (leaves - 1)))
    for number in range(leaves):
        net.flow(f"h{number}", target, octets, gap * number, interval, packets)
    net.reach(target)
    return net.text()


def hub(packets, delay, hosts=256):
    """So many packets in all to the hub."""
    return star(packets // hosts, 100, 10_240, hosts, delay, 40, False)


def many(packets=490, sources=1_024):
    """Many sources at one host, which sends through a router to another."""
    net = Net()
    for name, kind in (("h0", "host"), ("r", "router"), ("h1", "host")):
        net.node(name, kind)
    net.link("h0", "r")
    net.link("r", "h1")
    net.reach("h1")
    for number in range(sources):
        net.flow("h0", "h1", 100, 1_000 * number, 1_000 * sources, packets)
    return net.text()


def channels(count=1):
    """A router in partition 0, with links to so many hosts in partition 1: no packet is sent."""
    net = Net()
    net.node("c")
    for number in range(count):
        net.node(f"h{number}", "host", 1)
        net.link("c", f"h{number}")
    return net.text(10 ** 15)


def pair(stop, packets=0, interval=20_000):
    """Two hosts in two partitions: the first sends datagrams to the second. Each null message raises a clock by
    1,001,000 ns at most."""
    net = Net()
    net.node("a", "host")
    net.node("b", "host", 1)
    net.link("a", "b", 8_000_000_000 if packets else 8_000_000, 1_000_000)
    net.reach("b")
    if packets:
        net.flow("a", "b", 100, 0, interval, packets)
    return net.text(stop)


def nulls(rounds=1_000):
    """Two partitions that send each other null messages alone, so many each way in turn."""
    return pair(rounds * 1_001_000)


def one_way(packets=10_000):
    """Two partitions, the first of which sends so many messages to the second."""
    return pair(packets * 20_000 + 10_000_000, packets)


def limits(packets=4, partitions=64, size=16, chords=12, between=4, is_cut=True):
    """64 groups of 16 routers, 2,048 links, of which 256 join groups, and a source and 64 routes for each router. Where
    it is cut, each group is a partition: every limit at once."""
    net, groups = Net(), range(partitions)
    for p in groups:
        net.routers([f"p{p}-{i}" for i in range(size)], lambda _: p if is_cut else 0)
    for p in groups:
        for i in range(size):
            net.link(f"p{p}-{i}", f"p{p}-{(i + 1) % size}")
        for i in range(chords):
            net.link(f"p{p}-{i}", f"p{p}-{(i + 5) % size}", GIGABIT, 2_000)
        for i in range(between):
            net.link(f"p{p}-{4 * i}", f"p{(p + 1) % partitions}-{4 * i + 2}", GIGABIT, 100_000)
    targets = [f"p{p}-{p % size}" for p in groups]
    for target in targets:
        # A route at the target itself is never used, but makes 64 for each node.
        net.route(net.reach(target), target, min(net.next[target].values()))
    for n, node in enumerate(net.nodes):
        net.flow(node.name, targets[(7 * n + n // size) % partitions], 100, 100 * n, 50_000, packets)
    return net.text(10 ** 9)


KINDS = {
    "line": line,
    "grid": grid,
    # A line that is stopped soon after its last packet arrived: a round is a microsecond of simulated time.
    "line-cut": lambda partitions: line(stop=64_000_000, partitions=partitions),
    # A grid, cut into squares, and stopped soon after its last packet arrived: a round is ten microseconds.
    "grid-cut": lambda partitions: grid(stop=110_000_000, cuts=(round(partitions ** 0.5),) * 2),
    "grid-far": lambda partitions: edge_grid(partitions, 1_000_000),
    "grid-near": lambda partitions: edge_grid(partitions, 10_000),
    "ring-cut": cut_ring,
    "star": star,
    "line-1000": lambda packets=7_940: line(packets, 1_000, 20_000),
    "grid-1000": lambda packets=708: grid(packets, 1_000, 100_000, side=16, is_whole=False),
    "star-1000": lambda packets=10_400: star(packets, 1_000, 1_280_000),
    "ring-1000": ring,
    # Rates and delays differ from link to link: 100 Mbit/s to 10 Gbit/s, and 1 us to 10 ms in equal ratios.
    "mixed": lambda packets=2_000: grid(packets, links=lambda number, count: (
        10 ** (8 + number % 3), round(1_000 * 10_000 ** (number * 37 % count / (count - 1))))),
    "routes": lambda packets=50: limits(packets, is_cut=False),
    "large": lambda packets=2_000: grid(packets, 1_500, 400_000),
    "many": many,
    "limits": limits,
    # Delays of a millisecond, so that arrivals come in the order of their keys; from a microsecond to a second, in
    # equal ratios, so that they come in no order.
    "hub": lambda packets: hub(packets, lambda part: 1_000_000),
    "spread": lambda packets: hub(packets, lambda part: round(1_000 * 1_000_000 ** part)),
    "channels": channels,
    "both": both,
    "nulls": nulls,
    "one-way": one_way,
}


def generate(kind, path, *numbers):
    """Writes a topology of a kind to a file: its path."""
    pathlib.Path(path).write_text(KINDS[kind](*map(int, numbers)), encoding="ascii")
    return path


if __name__ == "__main__":
    if len(sys.argv) < 2 or sys.argv[1] not in KINDS:
        sys.exit(f"usage: dev/lib/topologies.py KIND [NUMBER]\n\n{__doc__} Kinds: {', '.join(KINDS)}")
    sys.stdout.write(KINDS[sys.argv[1]](*map(int, sys.argv[2:])))
