"""A page about a network: one file that a browser shows without a network."""

import html
import os

from networks import drawing, fields, limits, topology, traffic, units
from networks.units import html_table

STYLE = """
:root { color-scheme: light; }
body { font: 15px/1.45 system-ui, Helvetica, Arial, sans-serif; margin: 2rem auto; max-width: 76rem; padding: 0 1rem;
  color: #0f172a; background: #fff; }
h1 { font-size: 1.5rem; margin-bottom: .2rem; } h2 { font-size: 1.15rem; margin-top: 2rem; }
.picture { border: 1px solid #cbd5e1; border-radius: .5rem; padding: .5rem; background: #f8fafc; overflow: auto;
  text-align: center; }
.picture svg { max-width: 100%; height: auto; max-height: 80vh; }
.key span { display: inline-block; margin-right: 1.2rem; }
.key i { display: inline-block; width: 1rem; height: .7rem; border: 1px solid #64748b; margin-right: .3rem; }
.table { overflow-x: auto; } table { border-collapse: collapse; font-size: .9rem; }
th, td { padding: .2rem .7rem; border-bottom: 1px solid #e2e8f0; text-align: right; white-space: nowrap;
  font-variant-numeric: tabular-nums; }
th { background: #f1f5f9; position: sticky; top: 0; } th:first-child, td:first-child, .left { text-align: left; }
p.small { color: #475569; font-size: .85rem; }
"""


def links_table(network, found, loads):
    """A row for each link."""
    rows = []
    for number, (link, pair) in enumerate(zip(network.links, network.pairs())):
        cut = {network.nodes[node].partition for node in pair}
        packets = (f"{found.packets[end]:,}" for end in (link.a, link.b))
        rows.append((network.link_said(number), units.rate_said(link.rate), units.time_said(link.delay),
                     network.ifaces[link.a].queue, *packets, f"{loads[number] / 10**4:.2f}%",
                     " and ".join(map(str, sorted(cut))) if len(cut) > 1 else ""))
    return html_table(("link", "rate", "delay", "queue (packets)", "packets there", "packets back", "busy",
                       "joins partitions"), rows)


def flows_table(network, found):
    """A row for each source."""
    owners, rows = network.node_of_address(), []
    for number, source in enumerate(network.sources):
        name = network.nodes[source.node].name
        if source.kind == "raw":
            rows.append((f"{number}: raw", name, *[""] * 6))
            continue
        goal = network.nodes[owners[source.to]].name if source.to in owners else fields.address_said(source.to)
        rate = (source.size + limits.HEADERS) * 8 * 10**9 // source.interval
        end = f"{found.lengths[number]} links" if found.ends[number] is not None else "no route"
        port = f"port {source.dport}" if source.kind == "cbr" else f"identifier {source.ident}"
        rows.append((f"{number}: {source.kind}", name, goal, port, source.size,
                     f"{traffic.packets_of(network, source):,}", units.rate_said(rate), end))
    return html_table(("flow", "from", "to", "to port", "data (octets)", "packets", "rate", "way"), rows)


def nodes_table(network, found):
    """A row for each node."""
    rows = []
    for node, own, routes, hops in zip(network.nodes, network.ends(), network.node_routes(), found.hops):
        first = fields.address_said(network.ifaces[own[0][0]].address) if own else ""
        rows.append((node.name, node.kind, node.partition, len(own), first, len(routes), f"{hops:,}"))
    return html_table(("node", "kind", "partition", "links", "first address", "routes", "packets in and out"), rows)


def key_of_colours(network):
    """What the colours mean."""
    parts = sorted({node.partition for node in network.nodes})
    pieces = [f'<span><i style="background:{drawing.fill_of(part)}"></i>partition {part}</span>' for part in parts]
    pieces += [f'<span><i style="background:{drawing.colour(load)}"></i>{load // 10**4}% busy</span>'
               for load in (0, 500_000, 1_000_000)]
    return f"<p class=key>{''.join(pieces)}<span>boxes: routers; ellipses: hosts; dashed: between partitions</span></p>"


def html_text(text):
    """The page of a topology text."""
    network = topology.read(text)
    found = traffic.expected(network)
    loads = [max(traffic.load(network, found, end, number) for end in (link.a, link.b))
             for number, link in enumerate(network.links)]
    picture, drawer = drawing.drawn(network, loads) if network.nodes else ("", "nothing")
    title = html.escape(os.path.basename(text.name))
    partitions = max((node.partition for node in network.nodes), default=-1) + 1
    counts = (f"{topology.kinds_said(network)}, {len(network.links)} links, {len(network.routes):,} routes, "
              f"{len(network.sources)} flows, {partitions} partitions")
    parts = [
        "<!doctype html>\n<html lang=en><head><meta charset=utf-8><meta name=viewport content='width=device-width'>",
        f"<title>{title}</title><style>{STYLE}</style></head><body>",
        f"<h1>{title}</h1><p>{counts}. The run stops at {units.time_said(network.stop)}.</p>",
        f"<div class=picture>{picture}</div>{key_of_colours(network)}",
        "<p class=small>Packets and busy shares are what the sources send, followed along the routes. Nothing was "
        "simulated for this page: queues and drops are not in it, and <code>nullsim report</code> measures "
        f"them. Drawn by {html.escape(drawer)}.</p>",
        *(f"<h2>{name}</h2><div class=table>{rows}</div>" for name, rows in (
            ("Links", links_table(network, found, loads)), ("Flows", flows_table(network, found)),
            ("Nodes", nodes_table(network, found)))),
        "</body></html>",
    ]
    return "\n".join(parts) + "\n"
