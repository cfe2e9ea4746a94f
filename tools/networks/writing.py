"""The text of a topology."""

import itertools

from networks import fields, units


def said(value):
    """A value as TOML has it on one line; a table has no key whose value is None."""
    if isinstance(value, dict):
        return "{" + ", ".join(f"{key} = {said(held)}" for key, held in value.items() if held is not None) + "}"
    if isinstance(value, list):
        return f"[{', '.join(map(said, value))}]"
    return f'"{value}"' if isinstance(value, str) else str(value)


def route_table(network, route):
    """A route as a table."""
    return {"node": network.nodes[route.node].name, "to": fields.prefix_said(route.prefix, route.length),
            "via": network.ifaces[route.via].name}


def packet_line(at, packet):
    """A packet of a raw source, in hexadecimal, as a line."""
    return f'  {{at = {at}, data = "{packet}"}},\n'


def source_line(network, source):
    """A source as a table, which has a line for each packet of a raw one."""
    node, is_cbr = network.nodes[source.node].name, source.kind == "cbr"
    if source.kind == "raw":
        packets = "".join(packet_line(at, packet) for at, packet in source.packets)
        via = network.ifaces[source.via].name
        return f'{{kind = "raw", node = "{node}", via = "{via}", packet = [\n{packets}  ]}}'
    ports = {"sport": source.sport, "dport": source.dport} if is_cbr else {"ident": source.ident}
    return said({"kind": source.kind, "node": node, "to": fields.address_said(source.to), **ports, "size": source.size,
                 "start": source.start, "interval": source.interval, "count": source.count,
                 "ttl": source.ttl if source.ttl != 64 else None, "fill": source.fill or None})


def array(key, tables, remarks=()):
    """An array of tables, one a line, perhaps each with what is said of it."""
    both = itertools.zip_longest(tables, remarks)
    lines = (f"  {table},{f'  # {remark}' if remark else ''}" for table, remark in both)
    return "\n".join([f"{key} = [", *lines, "]"])


def tables(network):
    """The tables of each array."""
    nodes, ifaces = network.nodes, network.ifaces
    return {
        "node": [said({"name": node.name, "kind": node.kind, "partition": node.partition, "ports": node.ports or None})
                 for node in nodes],
        "iface": [said({"name": iface.name, "node": nodes[iface.node].name,
                        "address": fields.address_said(iface.address), "queue": iface.queue,
                        "queue_octets": iface.queue_octets}) for iface in ifaces],
        "link": [said({"a": ifaces[link.a].name, "b": ifaces[link.b].name, "rate": link.rate, "delay": link.delay})
                 for link in network.links],
        "route": [said(route_table(network, route)) for route in network.routes],
        "source": [source_line(network, source) for source in network.sources],
    }


def text(made, title=""):
    """The whole text, with what people read of nodes, links and sources; `network show` reads the places again."""
    network = made.network
    is_second = any(iface.queue_octets is not None for iface in network.ifaces)
    owners, stop = network.node_of_address(), f"{network.stop}   # nanoseconds: {units.time_said(network.stop)}"
    remarks = {
        "node": (f"latitude {node.where[0]:.2f}, longitude {node.where[1]:.2f}" if node.where else ""
                 for node in network.nodes),
        "link": (f"{units.rate_said(link.rate)}, {units.time_said(link.delay)}" for link in network.links),
        "source": (f"to {network.nodes[owners[source.to]].name}" for source in network.sources),
    }
    first = [f"# {made.first_line}", *([f"# {title}"] if title else []),
             "# Made by tools/network from a SPEC. What it chose:", "#", *(f"#   {line}" for line in made.chosen)]
    arrays = [array(key, found, remarks.get(key, ())) for key, found in tables(network).items()]
    head = f"format = {2 if is_second else 1}\nstop = {stop}\nmtu = {network.mtu}"
    return "\n\n".join(["\n".join(first), head, *arrays]) + "\n"
