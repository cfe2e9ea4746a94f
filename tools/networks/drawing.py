"""The network as a drawing in SVG: by Graphviz where it is installed, as on a map if nodes say their latitudes and
longitudes, or else its nodes on a circle."""

import colorsys
import html
import math
import re
import shutil
import subprocess

from networks import units

SECONDS = 60
# Fills of the first partitions, pale, so that names can be read on them.
FILLS = ("#dbeafe", "#dcfce7", "#fef3c7", "#fae8ff", "#fee2e2", "#e0e7ff", "#ccfbf1", "#f1f5f9")
# Of the others the hues follow one another by the golden angle, which keeps all of them apart, in three lightnesses.
GOLDEN = (3 - math.sqrt(5)) / 2
LIGHTNESSES = (0.86, 0.74, 0.8)
# More nodes than this are drawn by the way of Graphviz that is made for many, with straight links: those that bend
# around nodes take minutes.
MANY = 300
RADIUS_A_NODE = 26
WIDER = 1.7
# So much room has a node in the drawing, in square points; so far from it are those that have no place of their own.
ROOM_A_NODE = 12_000
BESIDE = 50
# A map is at most so many times as wide as high, or as high as wide.
LONGEST = 4


def flat(wheres):
    """Points of the plane for places, a degree long, true in the middle; the globe is cut behind the widest gap."""
    known = sorted({longitude % 360 for _, longitude in wheres.values()})
    first = max(((after - before) % 360, after) for before, after in zip(known, [*known[1:], known[0]]))[1]
    narrow = math.cos(math.radians(sum(latitude for latitude, _ in wheres.values()) / len(wheres)))
    return {number: ((longitude % 360 - first) % 360 * max(0.1, narrow), latitude)
            for number, (latitude, longitude) in wheres.items()}


def spread(points, count):
    """The points, moved and stretched to what so many nodes need."""
    xs, ys = zip(*points.values())
    wide, high = max(xs) - min(xs), max(ys) - min(ys)
    wide, high = max(wide, high / LONGEST, 1e-9), max(high, wide / LONGEST, 1e-9)
    scale = math.sqrt(count * ROOM_A_NODE / (wide * high))
    return {number: ((x - min(xs)) * scale, (y - min(ys)) * scale) for number, (x, y) in points.items()}


def beside(network, points):
    """Points for all other nodes: around the middle of those neighbours that have one."""
    near, found = network.near(), dict(points)
    while True:
        fresh = {}
        for number, others in enumerate(near):
            known = [found[other] for other in others if other in found]
            if number not in found and known:
                fresh[number] = tuple(sum(axis) / len(known) for axis in zip(*known))
        if not fresh:
            return found
        around = {}
        for number, point in fresh.items():
            around.setdefault(point, []).append(number)
        for (x, y), numbers in around.items():
            for step, number in enumerate(numbers):
                angle = 2 * math.pi * step / len(numbers) + math.pi / 2
                found[number] = x + BESIDE * math.cos(angle), y - BESIDE * math.sin(angle)


def points_of(network):
    """A point for each node by its number, or none if fewer than half of the routers say where they are."""
    wheres = {number: node.where for number, node in enumerate(network.nodes) if node.where}
    routers = [number for number, node in enumerate(network.nodes) if node.kind == "router"]
    if len(wheres) < 2 or 2 * sum(number in wheres for number in routers) < len(routers):
        return None
    found = beside(network, spread(flat(wheres), len(network.nodes)))
    return {number: found.get(number, (0, 0)) for number in range(len(network.nodes))}


def fill_of(partition):
    """The fill of the nodes of a partition."""
    if partition < len(FILLS):
        return FILLS[partition]
    shares = colorsys.hls_to_rgb(partition * GOLDEN % 1, LIGHTNESSES[partition % len(LIGHTNESSES)], 0.6)
    return "#" + "".join(f"{round(255 * share):02x}" for share in shares)


def colour(load):
    """From green, nothing to do, to red, always busy; the load is in millionths."""
    share = min(1000, load // 1000)
    return f"#{min(255, 40 + share * 215 * 2 // 1000):02x}{max(0, 150 - share * 130 // 1000):02x}30"


def width(load):
    """How thick a link is drawn."""
    return 1.2 + min(10**6, load) / 250_000


def is_cut(network, one, other):
    """Whether two nodes are in two partitions."""
    return network.nodes[one].partition != network.nodes[other].partition


def dot_text(network, loads, points=None):
    """The network for Graphviz, at these points if there are any."""
    splines = "line" if len(network.nodes) > MANY else "true"
    lines = ["graph network {",
             f"overlap=prism; splines={splines}; outputorder=edgesfirst; bgcolor=transparent; sep=0.1;",
             'node [style=filled, fontname="Helvetica", fontsize=10, color="#475569", margin="0.08,0.04", height=0.3];']
    for number, node in enumerate(network.nodes):
        shape = "box" if node.kind == "router" else "ellipse"
        at = f', pos="{points[number][0]:.1f},{points[number][1]:.1f}"' if points else ""
        lines.append(f'n{number} [label="{node.name}", shape={shape}, fillcolor="{fill_of(node.partition)}", '
                     f'tooltip="{node.name}: partition {node.partition}"{at}];')
    for link, (one, other), load in zip(network.links, network.pairs(), loads):
        says = f"{units.rate_said(link.rate)}, {units.time_said(link.delay)}, busy {load / 10**4:.2f}%"
        style = ', style="dashed"' if is_cut(network, one, other) else ""
        far = 1.6 if "host" not in (network.nodes[one].kind, network.nodes[other].kind) else 0.9
        lines.append(f'n{one} -- n{other} [color="{colour(load)}", penwidth={width(load):.2f}, len={far}, '
                     f'tooltip="{says}"{style}];')
    return "\n".join([*lines, "}"]) + "\n"


def by_graphviz(network, loads):
    """The drawing of Graphviz, with how it was drawn, or None and why there is none."""
    program = shutil.which("dot")
    if not program:
        return None, "Graphviz is not installed (apt-get install graphviz)"
    points = points_of(network)
    # With -n nodes stay where they are, but for those that would lie on others.
    way = ["-Kneato", "-n"] if points else ["-Ksfdp"] if len(network.nodes) > MANY else ["-Kneato"]
    try:
        ended = subprocess.run([program, *way, "-Tsvg"], input=dot_text(network, loads, points).encode(),
                               capture_output=True, timeout=SECONDS, check=False)
    except subprocess.TimeoutExpired:
        return None, f"Graphviz took more than {SECONDS} seconds"
    found = re.search(r"<svg.*</svg>", ended.stdout.decode(errors="replace"), re.DOTALL)
    how = "Graphviz, each node about where the file says that it is" if points else "Graphviz"
    return (found[0], how) if found and ended.returncode == 0 else (None, "Graphviz failed")


def on_a_circle(network, loads):
    """Routers on a circle, and each host outside of it beside the node that it hangs on."""
    anchors = [near[0] if node.kind == "host" and len(near) == 1 else None
               for node, near in zip(network.nodes, network.near())]
    order = []
    for number, anchor in enumerate(anchors):
        if anchor is None:
            order += [number, *(other for other, held in enumerate(anchors) if held == number)]
    order += [number for number in range(len(network.nodes)) if number not in set(order)]
    radius = max(160, len(order) * RADIUS_A_NODE / (2 * math.pi))
    # Wider than high, as names are.
    wide, high = 2 * (WIDER * radius + 200), 2 * (radius + 100)
    places = {}
    for step, number in enumerate(order):
        angle, far = 2 * math.pi * step / len(order), radius + (60 if anchors[number] is not None else 0)
        places[number] = (WIDER * far * math.sin(angle), -far * math.cos(angle))
    view = f"{-wide / 2:.0f} {-high / 2:.0f} {wide:.0f} {high:.0f}"
    lines = [f'<svg xmlns="http://www.w3.org/2000/svg" width="{wide:.0f}" height="{high:.0f}" viewBox="{view}">']
    for (one, other), load in zip(network.pairs(), loads):
        (x, y), (u, v) = places[one], places[other]
        dashes = ' stroke-dasharray="5 3"' if is_cut(network, one, other) else ""
        stroke = f'stroke="{colour(load)}" stroke-width="{width(load):.2f}"{dashes}'
        lines.append(f'<line x1="{x:.1f}" y1="{y:.1f}" x2="{u:.1f}" y2="{v:.1f}" {stroke}/>')
    for number, node in enumerate(network.nodes):
        x, y = places[number]
        fill, corner = fill_of(node.partition), 2 if node.kind == "router" else 9
        wide = 10 + 6.2 * len(node.name)
        lines.append(f'<rect x="{x - wide / 2:.1f}" y="{y - 9:.1f}" width="{wide:.1f}" height="18" rx="{corner}" '
                     f'fill="{fill}" stroke="#475569"/>')
        lines.append(f'<text x="{x:.1f}" y="{y + 4:.1f}" text-anchor="middle" font-family="Helvetica, sans-serif" '
                     f'font-size="10">{html.escape(node.name)}</text>')
    return "\n".join([*lines, "</svg>"])


def drawn(network, loads):
    """The drawing, and what drew it."""
    picture, how = by_graphviz(network, loads)
    if picture:
        return picture, how
    return on_a_circle(network, loads), f"tools/network, on a circle: {how}"
