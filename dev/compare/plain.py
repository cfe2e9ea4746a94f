"""Topologies: read from TOML, cut into parts, and written as TOML or as the plain lines that the C++ programs read
(network.h); and the sets of them that are compared: the examples, generated ones, and those of the stored cases, whole
and taken apart."""

import os
from ipaddress import IPv4Address

from dev.lib import here, topologies
from dev.lib.networks import toml_of

# The keys of a source that come after its kind's own, and what they are where they are absent.
TIMED = (("size", None), ("fill", 0), ("start", None), ("interval", None), ("count", None), ("ttl", 64))
# The kinds of dev/lib/topologies.py, and how many packets: few, so that a comparison takes seconds.
GENERATED = (("line", 300), ("line-1000", 100), ("grid", 20), ("grid-1000", 10), ("star", 100), ("star-1000", 100),
             ("ring-1000", 10), ("mixed", 20), ("routes", 2), ("large", 20), ("many", 4), ("hub", 2560),
             ("spread", 2560), ("both", 5), ("one-way", 100))


def read(path):
    """A topology as a dictionary with every array there."""
    topology = toml_of(path)
    for name in ("node", "iface", "link", "route", "source"):
        topology.setdefault(name, [])
    return topology


def numbers(tables):
    return {table["name"]: number for number, table in enumerate(tables)}


def source_lines(source, nodes, ifaces):
    node = nodes[source["node"]]
    if source["kind"] == "raw":
        yield f"raw {node} {ifaces[source['via']]}"
        for packet in source["packet"]:
            yield f"packet {packet['at']} {packet['data']}"
        return
    own = [source["sport"], source["dport"]] if source["kind"] == "cbr" else [source["ident"]]
    words = [node, int(IPv4Address(source["to"])), *own, *(source.get(key, absent) for key, absent in TIMED)]
    yield f"{source['kind']} {' '.join(map(str, words))}"


def plain_lines(topology):
    """The lines of a topology for the C++ programs."""
    nodes, ifaces = numbers(topology["node"]), numbers(topology["iface"])
    yield f"stop {topology['stop']}"
    yield f"mtu {topology['mtu']}"
    for number, node in enumerate(topology["node"]):
        yield f"node {node['name']} {node['kind']}"
        yield from (f"port {number} {port}" for port in node.get("ports", []))
    for iface in topology["iface"]:
        address, octets = int(IPv4Address(iface["address"])), iface.get("queue_octets", -1)
        yield f"iface {iface['name']} {nodes[iface['node']]} {address} {iface['queue']} {octets}"
    for link in topology["link"]:
        yield f"link {ifaces[link['a']]} {ifaces[link['b']]} {link['rate']} {link['delay']}"
    for route in topology["route"]:
        address, length = route["to"].split("/")
        yield f"route {nodes[route['node']]} {int(IPv4Address(address))} {length} {ifaces[route['via']]}"
    for source in topology["source"]:
        yield from source_lines(source, nodes, ifaces)


def write_plain(topology, path):
    here.write(path, "".join(line + "\n" for line in plain_lines(topology)))


def write_toml(topology, path):
    """Writes a topology as TOML, with a line for each key, without partitions: they change no trace."""
    whole = topology | {"node": [node | {"partition": 0} for node in topology["node"]]}
    here.write(path, "".join(f"{key} = {topologies.writing.said(value)}\n" for key, value in whole.items()))


def with_parts(topology, parts):
    """The same network with these parts of its sources alone; a source of which nothing is left goes."""
    sources = []
    for number, source in enumerate(topology["source"]):
        packets = [packet for part, packet in parts if part == number]
        if packets:
            is_raw = source["kind"] == "raw"
            sources.append(source | {"packet": [source["packet"][at] for at in packets]} if is_raw else source)
    return topology | {"source": sources}


def of_files(paths):
    for path in paths:
        yield os.path.basename(path), read(path)


def generated(folder):
    for kind, packets in GENERATED:
        path = topologies.generate(kind, os.path.join(folder, kind + ".toml"), packets)
        yield f"{kind}={packets}", read(path)


def networks(has_raw=True):
    """The networks of the stored cases, or all but their raw packets."""
    for name, topology in of_files(here.files("crates", "nullsim_cases", "data", "cases", "networks", ends=".toml")):
        sources = [source for source in topology["source"] if has_raw or source["kind"] != "raw"]
        yield name, topology | {"source": sources}


def by_source(topology):
    """The number of each source, with each of its raw packets, or nothing; and for each the network with it alone."""
    for number, source in enumerate(topology["source"]):
        for packet in range(len(source["packet"])) if source["kind"] == "raw" else [None]:
            yield (number, packet), with_parts(topology, [(number, packet)])


def every(folder):
    """Each set's name, what it is, and its topologies."""
    yield "examples", "`examples/*.toml`", of_files(here.topologies())
    yield "generated", "`dev/lib/topologies.py`, few packets", generated(folder)
    yield "without raw", "the 90 networks of the stored cases, without their raw packets", networks(False)
    yield "whole", "the same, whole", networks()
