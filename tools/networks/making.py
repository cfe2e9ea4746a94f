"""A network from a SPEC: interfaces named after both ends, addresses, routes, sources."""

from collections import namedtuple

from networks import addresses, errors, fields, flows, forms, limits, names, rooms, routes, scaling, units, writing
from networks.chance import Chance
from networks.topology import Iface, Link, Network, Node, kinds_said

# Chance for flows does not depend on how much of it the groups took.
FLOWS_SEED = 0x466C6F7773
# Of how many flows is said what their packets became.
PLANS_SAID = 20
# What helps against too many channels.
CHANNEL_ADVICE = "put nodes that many links join into one partition, or choose fewer partitions"
# A network, and what was chosen for it, in lines.
Made = namedtuple("Made", "network chosen first_line")


def joined(spec):
    """The nodes, interfaces and links, and what is said of delays that had to be raised."""
    network = Network(spec.stop, spec.mtu)
    numbers, given, raised = {}, names.Names(), []
    for number, node in enumerate(spec.nodes.values()):
        numbers[node.name] = number
        network.nodes.append(Node(node.name, node.kind, node.partition, list(node.ports), node.where))
    for link in spec.links:
        ends = []
        for own, far in ((link.a, link.b), (link.b, link.a)):
            ends.append(len(network.ifaces))
            rate, queue_octets = scaling.link(link, spec.scale, link.place)
            network.ifaces.append(Iface(given.between(own, far), numbers[own], 0, link.queue, queue_octets))
        delay = link.delay
        if delay < limits.CUT_DELAY and spec.nodes[link.a].partition != spec.nodes[link.b].partition:
            delay = limits.CUT_DELAY
            raised.append(f"{link.a} to {link.b}")
        network.links.append(Link(*ends, rate, delay, link.cost))
    return network, numbers, raised


def check_limits(network, name):
    """Refuses more interfaces or channels than a topology has."""
    if len(network.ifaces) > limits.IFACES:
        raise errors.Refused(name, f"there are {len(network.ifaces):,} interfaces, and at most {limits.IFACES:,} may "
                                   "be")
    cut = network.channels()
    if cut > limits.CHANNELS:
        raise errors.Refused(name, f"the partitions are joined by {cut:,} channels (two for each link between them), "
                                   f"and at most {limits.CHANNELS} may be: {CHANNEL_ADVICE}")


def make(spec, name, say=None):
    """The network of a SPEC; `name` is said where a fault has no line, `say` is told what fits before draws."""
    network, numbers, raised = joined(spec)
    check_limits(network, name)
    routes.check_joined(network, name, lambda number: spec.nodes[network.nodes[number].name].place())
    chance = None if spec.seed is None else Chance(spec.seed ^ FLOWS_SEED)
    place_of = flows.add(spec, network, numbers, chance)
    count = len(network.sources)
    blocks, taken = routed(spec, network)
    routes.check_counts(network, network.routes, name, spec.weight, spec.spread, spec.only_flows)
    routes.check_flows(network, lambda number: place_of[number])
    formed = planned(spec, network, say)
    return Made(network, [*chosen_lines(spec, network, count, blocks, taken, raised), *formed], first_line(spec))


def first_line(spec):
    """What seed there is."""
    if spec.seed is not None:
        return f"Seed {spec.seed}: what was chosen by chance follows from it."
    if any("seed" in table for table, _ in spec.flows):
        return "Seeds of flows: their packets follow from these."
    return "No seed: nothing here was chosen by chance."


def planned(spec, network, say):
    """Makes the sources of flows whose packets are drawn, listed or recorded; gives lines of what they are."""
    plans = [source for source in network.sources if source.plan]
    lines = [f"scale       {spec.scale}: sizes and rates are those of the SPEC, divided by it; times are the same"]
    lines = lines if spec.scale > 1 else []
    if not plans:
        return lines
    plain = Network(network.stop, network.mtu, network.nodes, network.ifaces, network.links, network.routes,
                    [source for source in network.sources if not source.plan])
    letters = limits.TEXT_OCTETS - rooms.SPARE_LETTERS - len(writing.text(Made(plain, [], ""), spec.title).encode())
    room = rooms.Room(letters, limits.SOURCES - len(plain.sources), network.stop)
    lines.append(rooms.line(room, network, spec.scale))
    if say:
        say(lines[-1])
    found = forms.Forming(spec, network, room).all()
    lines += [f"packets     {line}" for line in found[:PLANS_SAID]]
    if len(found) > PLANS_SAID:
        lines.append(f"packets     of {len(found) - PLANS_SAID:,} more flows in the same ways")
    return lines


def routed(spec, network):
    """Gives addresses and routes in the order of nodes that needs fewer routes; says how many blocks and addresses."""
    chosen, goals = routes.choices(network, spec.weight, spec.spread), [source.to for source in network.sources]
    best = ()
    # Which order needs fewer routes, as in a tree or as they are written, depends on the network.
    for order in (addresses.tree_order(network), range(len(network.nodes))):
        addressed(spec, network, order, goals)
        found = routes.tables(network, chosen, spec.only_flows)
        size = (routes.most_of_a_node(found)[1] > limits.NODE_ROUTES, len(found))
        if not best or size < best[0]:
            best = (size, order, found)
    _, order, network.routes = best
    return addressed(spec, network, order, goals)


def addressed(spec, network, order, goals):
    """Gives addresses in an order, those of the flows' goals to the sources too."""
    counts = addresses.give(network, order, spec.prefix, spec.prefix_place)
    first = {iface.node: iface.address for iface in reversed(network.ifaces)}
    for source, goal in zip(network.sources, goals):
        source.to = first[goal]
    return counts


def chosen_lines(spec, network, flow_count, blocks, taken, raised):
    """What was chosen, a line each."""
    # With one for each address of each other node.
    before = sum(len(network.ifaces) - len(own) for own in network.ends())
    to = " to the ends of flows" if spec.only_flows else ""
    spread = "; of equal ones another for each destination" if spec.spread else "; of equal ones the first"
    lines = [
        f"nodes       {kinds_said(network)}, {len(network.links)} links; an interface is named after its node and the "
        "node at the far end",
        f"addresses   {taken:,} of {fields.prefix_said(*spec.prefix)}, in {blocks} blocks: a router and the hosts "
        "behind it have one",
        f"routes      {len(network.routes):,}{to}, by least {spec.weight}{spread}; one for each address would be "
        f"{before:,}",
        f"flows       {flow_count} with {sum(source.count for source in network.sources):,} packets; where a cbr flow "
        "ends its port is open",
        f"stop        {units.time_said(spec.stop)}; a flow that says no other end ends at "
        f"{units.time_said(spec.stop * flows.TENTHS // 10)}",
        f"partitions  {max(node.partition for node in network.nodes) + 1}, with {network.channels()} channels",
    ]
    if raised:
        shown = ", ".join(raised[:4]) + (f" and {len(raised) - 4} more" if len(raised) > 4 else "")
        lines.append(f"raised      the delay of links between partitions to {limits.CUT_DELAY} ns: {shown}")
    return lines
