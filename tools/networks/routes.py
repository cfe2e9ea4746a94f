"""The static routes of a network, by shortest paths, in as few prefixes as they need."""

import bisect
from collections import Counter

from networks import errors, limits, paths
from networks.topology import Route
from networks.paths import Ways


class Tree:
    """Few prefixes for many addresses: the least table of which the longest prefix decides as asked. The manner is that
    of Draves, King, Venkatachary and Zill, "Constructing Optimal IP Routing Tables" (1999), with one difference: what
    no interface has is left open, and a prefix is no shorter than what it stands for.

    The addresses are a binary tree: a leaf for those of one owner that stand together, and an inner place where two
    parts part. Each place has a prefix."""

    def __init__(self, addresses, owners):
        """`addresses` are numbers, rising; `owners` has a number for each."""
        # Of each place its prefix, its two parts or none, and the owner of its first address.
        self.prefixes, self.parts, self.owners = [], [], []
        if addresses:
            self.grow(addresses, owners, 0, len(addresses))

    def grow(self, addresses, owners, first, past):
        """The place of some addresses in turn; its parts have lesser numbers than it."""
        low, high, parts = addresses[first], addresses[past - 1], ()
        length = 32 - (low ^ high).bit_length()
        if len(set(owners[first:past])) > 1:
            middle = bisect.bisect_left(addresses, high >> 31 - length << 31 - length, first, past)
            parts = (self.grow(addresses, owners, first, middle), self.grow(addresses, owners, middle, past))
        self.prefixes.append((low >> 32 - length << 32 - length, length))
        self.parts.append(parts)
        self.owners.append(owners[first])
        return len(self.parts) - 1

    def wanted(self, asked):
        """For each place the answers that are cheapest for it; none where all are open."""
        held = []
        for parts, owner in zip(self.parts, self.owners):
            left, right = (held[part] for part in parts) if parts else [{asked[owner]} - {None}] * 2
            held.append(left & right or left | right)
        return held

    def table(self, asked):
        """Prefixes with answers: the longest that holds an address has asked[its owner], where that is not None."""
        held, found = self.wanted(asked), []
        waiting = [(len(held) - 1, None)] if held else []
        while waiting:
            place, given = waiting.pop()
            sides = [held[part] for part in self.parts[place]]
            # An answer where the two sides have none in common would save a prefix on one side and cost this one: the
            # sides have their own, which reads more easily.
            is_parted = not all(sides) or sides and not sides[0] & sides[1]
            if held[place] and not is_parted and given not in held[place]:
                given = min(held[place])
                found.append((*self.prefixes[place], given))
            waiting += [(part, given) for part in reversed(self.parts[place])]
        return found


def choices(network, weight, spread=False):
    """For each node as a goal the interface by which each other node sends to it."""
    ends = network.ends()
    costs = [paths.WEIGHTS[weight](link) for link in network.links]
    return [paths.next_ifaces(network, ends, costs, goal, spread) for goal in range(len(network.nodes))]


def tables(network, chosen, only_flows=False):
    """The routes of all nodes. A host with one link has a default route, the others what they need: to all nodes, or to
    those at the ends of flows."""
    order = sorted(network.ifaces, key=lambda iface: iface.address)
    tree = Tree([iface.address for iface in order], [iface.node for iface in order])
    goals = flow_ends(network) if only_flows else range(len(network.nodes))
    routes = []
    for node, own in enumerate(network.ends()):
        if len(own) == 1 and network.nodes[node].kind == "host":
            routes.append(Route(node, 0, 0, own[0][0]))
            continue
        asked = [chosen[goal][node] if goal in goals else None for goal in range(len(network.nodes))]
        routes += [Route(node, *line) for line in sorted(tree.table(asked))]
    return routes


def most_of_a_node(routes):
    """The node with most routes, and how many it has."""
    return Counter(route.node for route in routes).most_common(1)[0] if routes else (0, 0)


def check_counts(network, routes, name, weight, spread, only_flows):
    """Refuses more routes than a topology has."""
    node, count = most_of_a_node(routes)
    if count <= limits.NODE_ROUTES and len(routes) <= limits.ROUTES:
        return
    who, some, most = "the network", len(routes), limits.ROUTES
    if count > limits.NODE_ROUTES:
        who, some, most = f'node "{network.nodes[node].name}"', count, limits.NODE_ROUTES
    fewer = routes if only_flows else tables(network, choices(network, weight, spread), True)
    ways = [f"route only to the ends of flows, which are {len(fewer):,} (`only_flows = true` in a SPEC, `routes "
            "--only-flows`)"] if len(fewer) < len(routes) else []
    advice = " or ".join(filter(None, [", ".join([*ways, *(["leave out spread"] if spread else [])]),
                                       "have fewer routers"]))
    raise errors.Refused(name, f"{who} would need {some:,} routes, and at most {most:,} may be: {advice}")


def computed(network, weight, spread=False, name="", only_flows=False):
    """The routes of a network whose addresses are given."""
    routes = tables(network, choices(network, weight, spread), only_flows)
    check_counts(network, routes, name, weight, spread, only_flows)
    return routes


def flow_ends(network):
    """The nodes that send or take a flow's packets, raw ones too: others get none."""
    owners = network.node_of_address()
    goals = {source.to for source in network.sources}
    goals.update(address for source in network.sources for address, _ in source.goals)
    return {source.node for source in network.sources} | {owners[goal] for goal in goals if goal in owners}


def check_joined(network, name, place_of=None):
    """Refuses a network in several pieces."""
    pieces = paths.parts(network)
    if len(pieces) > 1:
        one, other = (network.nodes[piece[0]].name for piece in pieces[:2])
        place = place_of(pieces[1][0]) if place_of else name
        raise errors.Refused(place, f'the network is in {len(pieces)} pieces: no links lead from node "{one}" to node '
                                    f'"{other}"')


def check_flows(network, place_of):
    """Refuses a source whose packets have no way to their destination, or whose echo replies have none back."""
    ways = Ways(network)
    for number, source in enumerate(network.sources):
        if source.kind == "raw" or source.to not in ways.owners:
            continue
        passed, end = ways.way(source.node, source.to)
        begin, goal = network.nodes[source.node].name, network.nodes[ways.owners[source.to]].name
        if end is None:
            raise errors.Refused(place_of(number), f'there is no way by routers from node "{begin}" to node "{goal}"')
        if source.kind == "echo" and passed:
            back = network.ifaces[passed[0][1]].address
            if ways.way(end, back)[1] is None:
                raise errors.Refused(place_of(number), f'there is no way by routers back from node "{goal}" to node '
                                                       f'"{begin}"')
