"""A network as its topology text has it: nodes, interfaces, links, routes and sources, each known by its number."""

import re
from collections import Counter
from dataclasses import dataclass, field

from networks import errors, fields, limits


@dataclass
class Node:
    name: str
    kind: str = "router"
    partition: int = 0
    ports: list = field(default_factory=list)
    # Its latitude and longitude, which a SPEC says, or a comment: a topology has no key for them.
    where: tuple | None = None


@dataclass
class Iface:
    name: str
    node: int
    address: int
    queue: int = 100
    queue_octets: int | None = None


@dataclass
class Link:
    """Between two interfaces; rate in bits per second, delay in nanoseconds, cost a number that a SPEC may give."""

    a: int
    b: int
    rate: int
    delay: int
    cost: int | None = None


@dataclass
class Route:
    node: int
    prefix: int
    length: int
    via: int


@dataclass
class Source:
    """`to` is an address, `size` octets of data, `start` and `interval` nanoseconds. A raw source has none of them,
    but an interface and packets: (time, octets in hexadecimal)."""

    kind: str
    node: int
    to: int = 0
    sport: int = 0
    dport: int = 0
    ident: int = 0
    size: int = 0
    start: int = 0
    interval: int = 1
    count: int = 0
    ttl: int = 64
    fill: int = 0
    via: int | None = None
    packets: list = field(default_factory=list)
    # Of a raw source that was read: how many packets, and octets of them, go to each address with each time to live.
    goals: dict = field(default_factory=dict)
    # The flow of a SPEC that it is of, and what is planned of a flow before it has its sources.
    flow: object = None
    plan: object = None


@dataclass
class Network:
    stop: int
    mtu: int
    nodes: list = field(default_factory=list)
    ifaces: list = field(default_factory=list)
    links: list = field(default_factory=list)
    routes: list = field(default_factory=list)
    sources: list = field(default_factory=list)

    def ends(self):
        """For each node its links: (own interface, interface at the far end, link), in the order of its interfaces."""
        found = [[] for _ in self.nodes]
        for number, link in enumerate(self.links):
            for own, far in ((link.a, link.b), (link.b, link.a)):
                found[self.ifaces[own].node].append((own, far, number))
        return [sorted(ends) for ends in found]

    def pairs(self):
        """The two nodes of each link."""
        return [(self.ifaces[link.a].node, self.ifaces[link.b].node) for link in self.links]

    def link_said(self, number):
        """A link as "a to b"."""
        link = self.links[number]
        return " to ".join(self.nodes[self.ifaces[end].node].name for end in (link.a, link.b))

    def near(self):
        """The nodes at the far ends of each node's links."""
        return [[self.ifaces[far].node for _, far, _ in own] for own in self.ends()]

    def channels(self, parts=None):
        """How many channels join the partitions of the nodes: their own, or others."""
        parts = parts or [node.partition for node in self.nodes]
        return 2 * sum(parts[one] != parts[other] for one, other in self.pairs())

    def node_of_address(self):
        """Which node has an address."""
        return {iface.address: iface.node for iface in self.ifaces}

    def node_routes(self):
        """The routes of each node."""
        found = [[] for _ in self.nodes]
        for route in self.routes:
            found[route.node].append(route)
        return found


NODE = {
    "name": fields.name,
    "kind": fields.choice("host", "router"),
    "partition": fields.whole(0, limits.PARTITIONS - 1, "partitions count from 0"),
    "ports": fields.several(fields.whole(*limits.PORT, "a port"), limits.NODE_PORTS),
}
IFACE = {
    "name": fields.name,
    "node": fields.name,
    "address": fields.real_address,
    "queue": fields.whole(*limits.QUEUE, "packets"),
    "queue_octets": fields.whole(*limits.QUEUE_OCTETS, "octets"),
}
LINK = {
    "a": fields.name,
    "b": fields.name,
    "rate": fields.whole(*limits.RATE, "bits per second"),
    "delay": fields.whole(*limits.DELAY, "nanoseconds"),
}
ROUTE = {"node": fields.name, "to": fields.prefix, "via": fields.name}
SOURCE = {
    "kind": fields.choice("cbr", "echo", "raw"),
    "node": fields.name,
    "to": fields.real_address,
    "sport": fields.whole(*limits.PORT, "a port"),
    "dport": fields.whole(*limits.PORT, "a port"),
    "ident": fields.whole(0, 65_535, "an identifier"),
    "size": fields.whole(0, limits.MTU[1] - limits.HEADERS, "octets"),
    "fill": fields.whole(*limits.FILL, "an octet"),
    "start": fields.whole(*limits.START, "nanoseconds"),
    "interval": fields.whole(*limits.INTERVAL, "nanoseconds"),
    "count": fields.whole(*limits.COUNT, "packets"),
    "ttl": fields.whole(*limits.TTL, "links"),
    "via": fields.name,
    "packet": fields.anything,
}
TOP = {
    "format": fields.whole(1, 2, "the format"),
    "stop": fields.whole(*limits.STOP, "nanoseconds"),
    "mtu": fields.whole(*limits.MTU, "octets"),
}
# Keys that a SPEC has, and a topology has not.
ARE_OF_SPECS = {"title", "group", "flow", "defaults", "weight", "prefix", "seed"}
MOST = {"node": limits.NODES, "iface": limits.IFACES, "link": limits.LINKS, "route": limits.ROUTES,
        "source": limits.SOURCES}
# What is said of a node behind its table.
WHERE = re.compile(r"# *latitude (-?[0-9]+(?:\.[0-9]+)?), longitude (-?[0-9]+(?:\.[0-9]+)?)")
# The header of an IPv4 packet, in hexadecimal.
IPV4_HEADER = re.compile("4[0-9A-Fa-f]{39}")
TIMED = ("to", "size", "start", "interval", "count")


class Reading:
    """Reads the network of a topology text. `nullsim check` tests more: this reads what the tool needs."""

    def __init__(self, text):
        self.text, self.network = text, None
        self.nodes, self.ifaces = {}, {}

    def place(self, array, number, value):
        """How places in a member of an array are said."""
        name = value.get("name") if isinstance(value, dict) and array in ("node", "iface") else None
        return self.text.member(array, number, errors.shown(name) if name else "")

    def named(self, known, table, place, key, what):
        """The number of what a key names."""
        if table[key] not in known:
            raise errors.unknown(place, key, what, table[key], known)
        return known[table[key]]

    def new(self, known, word, number, place, what):
        """Gives a name to a number, once."""
        if known.setdefault(word, number) != number:
            raise errors.Refused(place("name"), f"two {what}s have the name {errors.shown(word)}: {what} {known[word]} "
                                                "too")

    def read(self):
        """The whole network."""
        means = self.text.means
        if "format" not in means and ARE_OF_SPECS & set(means):
            raise errors.Refused(self.text.name, "this is a SPEC, not a topology: `network make` makes one of it")
        top = {key: value for key, value in means.items() if key not in MOST}
        head = fields.table(top, TOP, self.text.place, tuple(TOP))
        self.network = Network(head["stop"], head["mtu"])
        for array, most in MOST.items():
            members, held, read = self.text.members(array), getattr(self.network, f"{array}s"), getattr(self, array)
            if len(members) > most:
                raise errors.Refused(self.text.place(array), f'"{array}" has {len(members):,} members, and at most '
                                                             f"{most:,} may be")
            for number, value in enumerate(members):
                held.append(read(number, value, self.place(array, number, value)))
        self.once()
        return self.network

    def once(self):
        """Each interface is at one end of one link, and has an address of its own."""
        uses, held = Counter(end for link in self.network.links for end in (link.a, link.b)), {}
        places = [self.text.member("iface", *it) for it in enumerate(map(errors.shown, self.ifaces))]
        for number, place in enumerate(places):
            if uses[number] != 1:
                raise errors.Refused(place(), f"it is at {uses[number]} ends of links, and has to be at one")
        for number, (iface, place) in enumerate(zip(self.network.ifaces, places)):
            if held.setdefault(iface.address, number) != number:
                raise errors.Refused(place("address"), f"interface {held[iface.address]} has this address too")

    def node(self, number, value, place):
        table = fields.table(value, NODE, place, ("name", "kind"))
        self.new(self.nodes, table["name"], number, place, "node")
        return Node(**table, where=self.where(number))

    def where(self, number):
        """The place that the comment on a node's line says, or none."""
        text, item = self.text.text, self.text.spans.at("node", number)
        end = text.find("\n", item.end or item.start)
        found = WHERE.search(text, item.start, end if end >= 0 else len(text))
        return tuple(map(float, found.groups())) if found else None

    def iface(self, number, value, place):
        table = fields.table(value, IFACE, place, ("name", "node", "address", "queue"))
        self.new(self.ifaces, table["name"], number, place, "interface")
        return Iface(**{**table, "node": self.named(self.nodes, table, place, "node", "node")})

    def link(self, _, value, place):
        table = fields.table(value, LINK, place, tuple(LINK))
        ends = {key: self.named(self.ifaces, table, place, key, "interface") for key in ("a", "b")}
        return Link(**{**table, **ends})

    def route(self, _, value, place):
        table = fields.table(value, ROUTE, place, tuple(ROUTE))
        node = self.named(self.nodes, table, place, "node", "node")
        via = self.named(self.ifaces, table, place, "via", "interface")
        if self.network.ifaces[via].node != node:
            raise errors.Refused(place("via"), f"{errors.shown(table['via'])} is no interface of node "
                                               f"{errors.shown(table['node'])}")
        return Route(node, *table["to"], via)

    def source(self, _, value, place):
        is_raw = isinstance(value, dict) and value.get("kind") == "raw"
        table = fields.table(value, SOURCE, place, ("kind", "node", *(("via", "packet") if is_raw else TIMED)))
        node = self.named(self.nodes, table, place, "node", "node")
        packets = table.pop("packet", None)
        source = Source(**{**table, "node": node, "via": None})
        if is_raw:
            source.via = self.named(self.ifaces, table, place, "via", "interface")
            source.goals = goals_of(packets)
        return source


def goals_of(packets):
    """How many packets of a raw source, and octets of them, go to each address with each time to live. What is no
    packet of IPv4 goes nowhere."""
    found = {}
    for packet in packets if isinstance(packets, list) else ():
        data = packet.get("data") if isinstance(packet, dict) else None
        if isinstance(data, str) and IPV4_HEADER.match(data):
            held = found.setdefault((int(data[32:40], 16), int(data[16:18], 16)), [0, 0])
            held[0] += 1
            held[1] += len(data) // 2
    return found


def read(text):
    """The network of a topology text."""
    return Reading(text).read()


def kinds_said(network):
    """As "40 nodes (0 hosts, 40 routers)"."""
    hosts = sum(node.kind == "host" for node in network.nodes)
    return f"{len(network.nodes)} nodes ({hosts} hosts, {len(network.nodes) - hosts} routers)"
