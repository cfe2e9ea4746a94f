"""The sources of a topology from the flows of a SPEC: who sends to whom, how often and how many."""

import fnmatch
from dataclasses import dataclass

from networks import datagrams, errors, limits, plans, recorded, scaling, units
from networks.topology import Source

# Where a flow and the defaults say neither: bits per second of a cbr flow, nanoseconds between echo requests, octets of
# data.
CBR_RATE = 10**6
ECHO_INTERVAL = 10**8
SIZES = {"cbr": 1000, "echo": 56}
FIRST_PORT, PORTS = 10_000, 50_000
# A flow ends at nine tenths of the run, so that its last packets arrive before the end.
TENTHS = 9


@dataclass
class Flow:
    """What a flow is called in tables: the number of its table in the SPEC, the name of that (or the number), its kind,
    and its ends by name."""

    table: int
    name: str
    kind: str
    one: str
    other: str

    def said(self):
        """As "flow 2, a to b"."""
        return f"flow {self.name}, {self.one} to {self.other}"


def matching(spec, patterns, place, key):
    """The nodes that patterns name, in the order of the patterns, each once."""
    found = {}
    for pattern in patterns:
        is_one = "*" not in pattern
        some = [name for name in spec.nodes if (name == pattern if is_one else fnmatch.fnmatchcase(name, pattern))]
        if not some:
            raise errors.Refused(place(key), f'key "{key}": no node is named '
                                             f'{errors.shown(pattern)}{errors.meant(pattern, spec.nodes)}')
        found.update(dict.fromkeys(some))
    return list(found)


def pairs_of(spec, table, chance, place):
    """Who sends to whom, by names."""
    if "from" in table:
        senders, takers = (matching(spec, table[key], place, key) for key in ("from", "to"))
        if senders == takers and len(senders) == 1:
            raise errors.Refused(place("to"), f'node "{senders[0]}" would send to itself')
        return [(one, other) for one in senders for other in takers if one != other]
    nodes = matching(spec, table["among"], place, "among")
    count = len(nodes)
    if count < 2:
        raise errors.Refused(place("among"), 'key "among" names one node, and two are needed')
    if table["pairs"] == "all":
        return [(one, other) for one in nodes for other in nodes if one != other]
    if table["pairs"] == "first":
        return [(one, nodes[0]) for one in nodes[1:]]
    if table["pairs"] == "random":
        if chance is None:
            raise errors.Refused(place("pairs"), "pairs by chance need `seed = NUMBER` at the top of the SPEC")
        return [(one, nodes[(number + 1 + chance.below(count - 1)) % count]) for number, one in enumerate(nodes)]
    step = 1 if table["pairs"] == "next" else count // 2
    return [(one, nodes[(number + step) % count]) for number, one in enumerate(nodes)]


def interval_of(table, size, place):
    """Nanoseconds from one packet to the next."""
    if "interval" in table:
        return table["interval"]
    if "rate" not in table and table["kind"] == "echo":
        return ECHO_INTERVAL
    rate = table.get("rate", CBR_RATE)
    interval = max(1, (16 * 10**9 * (size + limits.HEADERS) + rate) // (2 * rate))
    if interval > limits.INTERVAL[1]:
        each = f"a packet of {size + limits.HEADERS} octets goes each {units.time_said(interval)}"
        raise errors.Refused(place("rate"), f"at {units.rate_said(rate)} {each}: at most 1,000 s may be")
    return interval


def count_of(spec, table, start, interval, place):
    """How many packets there are."""
    if "count" in table:
        last = start + (table["count"] - 1) * interval
        if last >= spec.stop:
            raise errors.Refused(place("count"), f"the last packet would go at {units.time_said(last)}, and the run "
                                                 f"stops at {units.time_said(spec.stop)}")
        return table["count"]
    until = table.get("until", spec.stop * TENTHS // 10)
    if start >= until:
        raise errors.Refused(place("start"), f"the flow would start at {units.time_said(start)} and end at "
                                             f"{units.time_said(until)}: it has no packet")
    count = (until - start - 1) // interval + 1
    if count > limits.COUNT[1]:
        raise errors.Refused(place(), f"the flow would have {count:,} packets, and at most {limits.COUNT[1]:,} may be: "
                                      "send less often, or end sooner with `until`")
    return count


def sizes_of(table):
    """How many octets of data the packets of a flow have: each size that it names."""
    if plans.is_planned(table):
        return table.get("sizes") or [table.get("size", plans.SIZE)]
    return [table.get("size", SIZES[table["kind"]])]


def check_sizes(spec, table, place):
    """Refuses a size that does not fit the mtu, or that cannot be scaled."""
    key = "sizes" if "sizes" in table else "size"
    for size in sizes_of(table) if table["kind"] != "trace" else ():
        if size > spec.mtu - limits.HEADERS:
            raise errors.Refused(place(key), f"{size} octets of data do not fit the mtu of {spec.mtu} octets: at most "
                                             f"{spec.mtu - limits.HEADERS} do")
        if spec.scale > 1:
            scaling.size(size, spec.scale, place, key)


def plain(spec, table, pairs, place):
    """The sources of a flow of kind cbr or echo."""
    kind, size = table["kind"], sizes_of(table)[0]
    interval = interval_of(table, size, place)
    for number, (one, other) in enumerate(pairs):
        start = table["start"] + number * table["stagger"]
        source = Source(kind, 0, size=size, start=start, interval=interval)
        source.count = count_of(spec, table, start, interval, place)
        if spec.scale > 1:
            source.size = scaling.size(size, spec.scale, place)
        yield source, one, other


def planned(spec, table, table_number, pairs, place):
    """A source for each flow whose packets are drawn, listed or recorded. It stands for those that the flow will have,
    until addresses are given."""
    recording, packets_of = None, {}
    if table["kind"] == "trace":
        recording = recorded.read(recorded.path_of(spec.name, table["file"]), place("file"), spec.mtu)
        if recording.is_capture and spec.scale > 1:
            raise errors.Refused(place("file"), "packets of a capture go as they are, and cannot be scaled: leave out "
                                                "`scale`")
        packets_of = mapped(spec, table, recording, place)
        pairs = list(packets_of) if packets_of else pairs
    origin = min((at for at, _ in recording.packets), default=0) if recording else 0
    for number, (one, other) in enumerate(pairs):
        begin = table["start"] + number * table["stagger"]
        usual = spec.stop if "count" in table or "at" in table else spec.stop * TENTHS // 10
        end = min(table.get("until", usual), spec.stop)
        if begin >= end:
            raise errors.Refused(place("start"), f"the flow would start at {units.time_said(begin)} and end at "
                                                 f"{units.time_said(end)}: it has no packet")
        found = packets_of.get((one, other), recording.packets) if recording else None
        plan = plans.Plan(table, place, table_number, number, begin, end, recording, found, origin)
        yield Source("cbr", 0, start=begin, plan=plan), one, other


def mapped(spec, table, recording, place):
    """The packets of a capture between the nodes of its map; nothing where there is no map."""
    if "addresses" not in table:
        return {}
    if not recording.is_capture:
        raise errors.Refused(place("addresses"), "a list of times and sizes has no addresses: write `from` and `to`")
    for name in table["addresses"].values():
        if name not in spec.nodes:
            raise errors.unknown(place, "addresses", "node", name, spec.nodes)
    found = recorded.by_nodes(recording, table["addresses"])
    if not found:
        raise errors.Refused(place("addresses"), "no packet of the capture goes between two nodes of the map")
    return found


def sources_of(spec, table, table_number, chance, place, first):
    """The sources of a flow: (source, name of the node that sends, name of the one that takes)."""
    check_sizes(spec, table, place)
    pairs = pairs_of(spec, table, chance, place) if "addresses" not in table else []
    is_planned = plans.is_planned(table)
    found = planned(spec, table, table_number, pairs, place) if is_planned else plain(spec, table, pairs, place)
    for number, (source, one, other) in enumerate(found):
        source.ttl, source.fill = table["ttl"], table["fill"]
        source.sport = table.get("sport", FIRST_PORT + (first + number) % PORTS)
        source.dport = table["dport"]
        source.ident = table.get("ident", (first + number) % 65_536)
        kind = source.plan.kind if source.plan else source.kind
        source.flow = Flow(table_number, table.get("name", str(table_number)), kind, one, other)
        yield source, one, other


def open_ports(node, source, place):
    """Opens the port of a cbr flow at the node where it ends, once; of a capture those of its datagrams, as many as a
    node may have."""
    plan = source.plan
    if plan and plan.is_capture:
        ports = dict.fromkeys(map(datagrams.udp_port, (packet for _, packet in plan.packets)))
        free = [port for port in ports if port is not None and port not in node.ports]
        node.ports += free[:limits.NODE_PORTS - len(node.ports)]
    elif source.kind == "cbr" and source.dport not in node.ports:
        node.ports.append(source.dport)
    if len(node.ports) > limits.NODE_PORTS:
        raise errors.Refused(place("dport"), f'more than {limits.NODE_PORTS} ports of node "{node.name}" would be '
                                             "used: flows may share a port")


def add(spec, network, numbers, chance):
    """Puts the sources of all flows into a network, and the ports where they end; gives the place of each source."""
    place_of = []
    for table_number, (table, place) in enumerate(spec.flows):
        for source, one, other in sources_of(spec, table, table_number, chance, place, len(network.sources)):
            source.node, goal = numbers[one], numbers[other]
            # The node, until addresses are given.
            source.to = goal
            network.sources.append(source)
            place_of.append(place())
            open_ports(network.nodes[goal], source, place)
            if len(network.sources) > limits.SOURCES:
                raise errors.Refused(place(), f"there would be more than {limits.SOURCES:,} flows: name fewer nodes, "
                                              "or leave `pairs = \"all\"`")
    return place_of
