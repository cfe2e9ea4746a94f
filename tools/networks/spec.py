"""Reads a SPEC, the short description of a network: `network make --help` has each key."""

from dataclasses import dataclass, field, replace

from networks import errors, fields, flowkeys, groups, limits, names, paths
from networks.chance import Chance
from networks.topology import Node


@dataclass
class SpecNode(Node):
    place: object = None


@dataclass
class SpecLink:
    """`a` and `b` are names of nodes."""

    a: str
    b: str
    place: object
    rate: int
    delay: int
    queue: int
    queue_octets: int | None = None
    cost: int | None = None


@dataclass
class Spec:
    """What a SPEC says, its groups and hosts written out. A flow is its table of keys, with its place."""

    title: str = ""
    seed: int | None = None
    stop: int = 10**9
    mtu: int = 1500
    prefix: tuple = (10 << 24, 8)
    weight: str = "delay"
    spread: bool = False
    only_flows: bool = False
    scale: int = 1
    # Where the prefix stands, and the name of the text, beside which files of flows are.
    prefix_place: str = ""
    name: str = ""
    nodes: dict = field(default_factory=dict)
    links: list = field(default_factory=list)
    flows: list = field(default_factory=list)


PARTITION = fields.whole(0, limits.PARTITIONS - 1, "partitions count from 0")
HOSTS = fields.whole(0, limits.HOSTS, "hosts")
PORTS = fields.several(fields.whole(*limits.PORT, "a port"), limits.NODE_PORTS)
NODE = {"kind": fields.choice("router", "host"), "partition": PARTITION, "hosts": HOSTS}
LINK = {
    "rate": fields.rate(),
    "delay": fields.time(limits.DELAY),
    "queue": fields.whole(*limits.QUEUE, "packets"),
    "queue_octets": fields.whole(*limits.QUEUE_OCTETS, "octets"),
}
COST = {"cost": fields.whole(1, 10**9, "what a path pays for the link")}
TOP = {
    "title": fields.line,
    "seed": fields.whole(*limits.SEED, "a seed"),
    "stop": fields.time(limits.STOP),
    "mtu": fields.whole(*limits.MTU, "octets"),
    "prefix": fields.prefix,
    "weight": fields.choice(*paths.WEIGHTS),
    "spread": fields.flag,
    "only_flows": fields.flag,
    "scale": fields.whole(*limits.SCALE, "by which sizes and rates are divided"),
}
DEFAULTS = {"node": NODE, "link": LINK, "host_link": LINK, "flow": flowkeys.FLOW}
ARRAYS = ("node", "link", "group", "flow")
# What holds where neither a table nor `defaults` says it: nanoseconds, bits per second, packets.
BUILT_IN = {
    "node": {"kind": "router", "partition": 0, "hosts": 0},
    "link": {"rate": 10**9, "delay": 10**6, "queue": 100},
    "host_link": {"delay": 10**4},
    "flow": {"kind": "cbr", "start": 0, "stagger": 0, "dport": 9, "ttl": 64, "fill": 0,
             "periods": "exponential"},
}


class Reading:
    """Reads the SPEC of a TOML text."""

    def __init__(self, text):
        self.text, self.spec = text, Spec(name=text.name)
        self.defaults = {key: dict(value) for key, value in BUILT_IN.items()}
        # They stand behind the other links.
        self.host_links, self.chance = [], None

    def read(self):
        """The whole SPEC."""
        self.top()
        self.each("node", "group", "link")
        if not self.spec.nodes:
            raise errors.Refused(self.text.name, "there is no node: write `node = [..]` or `[[group]]`")
        self.spec.links += self.host_links
        for count, most, what in ((len(self.spec.nodes), limits.NODES, "nodes"),
                                  (len(self.spec.links), limits.LINKS, "links")):
            if count > most:
                raise errors.Refused(self.text.name, f"there are {count:,} {what}, hosts and groups written out; "
                                                     f"{groups.MOST_SAID}")
        self.each("flow")
        return self.spec

    def each(self, *arrays):
        """Reads the members of arrays in turn."""
        for array in arrays:
            for number, table in enumerate(self.text.members(array)):
                getattr(self, array)(number, table)

    def top(self):
        """What stands before the arrays, and the defaults."""
        means, text = self.text.means, self.text
        if "format" in means and "iface" in means:
            raise errors.Refused(text.name, "this is a topology, not a SPEC: `network routes`, `partition` and `show` "
                                            "take it")
        read = fields.table(means, {**TOP, **dict.fromkeys((*ARRAYS, "defaults"), fields.anything)}, text.place)
        place = text.place("prefix") if "prefix" in means else text.name
        self.spec = replace(self.spec, prefix_place=place, **{key: read[key] for key in TOP if key in read})
        self.chance = None if self.spec.seed is None else Chance(self.spec.seed)
        defaults = fields.table(means.get("defaults", {}), dict.fromkeys(DEFAULTS, fields.anything),
                                lambda *way: f"{text.place('defaults', *way)}: defaults")
        for key, members in DEFAULTS.items():
            def place(*way, key=key):
                return f"{text.place('defaults', key, *way)}: defaults.{key}"
            self.defaults[key].update(fields.table(defaults.get(key, {}), members, place))
        self.defaults["host_link"] = {**self.defaults["link"], **self.defaults["host_link"]}

    def add(self, name, kind, partition, place, ports=(), where=None):
        """A node."""
        if not names.is_name(name):
            raise errors.Refused(place(), f"the name {errors.shown(name)} would be longer than {limits.NAME_LENGTH} "
                                          "letters: shorten that of the node or group")
        if name in self.spec.nodes:
            raise errors.Refused(place(), f'two nodes have the name "{name}": the other one is at '
                                          f'{self.spec.nodes[name].place()}')
        self.spec.nodes[name] = SpecNode(name, kind, partition, list(ports), where, place)

    def hosts(self, router, count, partition, place):
        """The hosts behind a router: ROUTER-h1 and so on."""
        for number in range(1, count + 1):
            self.add(f"{router}-h{number}", "host", partition, place)
            self.host_links.append(self.joined(router, f"{router}-h{number}", {}, "host_link", place))

    def joined(self, one, other, table, defaults, place):
        """A link, with the defaults for what its table does not say."""
        held = {**self.defaults[defaults], **table}
        return SpecLink(one, other, place, **{key: held[key] for key in (*LINK, *COST) if key in held})

    def node(self, number, value):
        named = errors.shown(value["name"]) if isinstance(value, dict) and "name" in value else ""
        place = self.text.member("node", number, named)
        own = {"name": fields.name, **NODE, "ports": PORTS, "place": fields.place}
        table = {**self.defaults["node"], **fields.table(value, own, place, ("name",))}
        # A host has no hosts, unless its own table says so: then that is a mistake.
        count = value.get("hosts", 0) if table["kind"] == "host" else table["hosts"]
        if table["kind"] == "host" and count:
            raise errors.Refused(place("hosts"), "a host has no hosts behind it: only routers do")
        self.add(table["name"], table["kind"], table["partition"], place, table.get("ports", ()), table.get("place"))
        self.hosts(table["name"], count, table["partition"], place)

    def group(self, number, value):
        kind = value.get("kind") if isinstance(value, dict) else None
        named = f"{kind} {errors.shown(value['name'])}" if kind in groups.KINDS and "name" in value else ""
        place = self.text.member("group", number, named)
        every = {key: fields.anything for _, keys in groups.KINDS.values() for key in keys}
        own = groups.KINDS[kind][1] if kind in groups.KINDS else every
        keys = {"kind": fields.choice(*groups.KINDS), "name": fields.name, **own, "hosts": HOSTS,
                "partition": PARTITION, **LINK, **COST}
        table = fields.table(value, keys, place, ("kind", "name", *(own if kind in groups.KINDS else ())))
        shape = groups.make(table, self.chance, place)
        partition = table.get("partition", self.defaults["node"]["partition"])
        for name in shape.nodes:
            self.add(name, "router", partition, place)
        self.spec.links += [self.joined(one, other, table, "link", place) for one, other in shape.links]
        count = table.get("hosts", shape.hosts or self.defaults["node"]["hosts"])
        for name in shape.leaves:
            self.hosts(name, count, partition, place)

    def link(self, number, value):
        ends = [value.get(key) for key in ("a", "b")] if isinstance(value, dict) else [None]
        named = " to ".join(map(errors.shown, ends)) if all(isinstance(end, str) for end in ends) else ""
        place = self.text.member("link", number, named)
        table = fields.table(value, {"a": fields.name, "b": fields.name, **LINK, **COST}, place, ("a", "b"))
        for key in ("a", "b"):
            if table[key] not in self.spec.nodes:
                raise errors.unknown(place, key, "node", table[key], self.spec.nodes)
        if table["a"] == table["b"]:
            raise errors.Refused(place(), "a link joins two nodes, and both ends of this are one")
        kinds = {self.spec.nodes[table[key]].kind for key in ("a", "b")}
        defaults = "host_link" if "host" in kinds else "link"
        self.spec.links.append(self.joined(table["a"], table["b"], table, defaults, place))

    def flow(self, number, value):
        place = self.text.member("flow", number)
        self.spec.flows.append((flowkeys.read(value, self.defaults["flow"], place), place))


def read(text):
    """The SPEC of a TOML text."""
    return Reading(text).read()
