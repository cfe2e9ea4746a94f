"""Shortest paths, and the ways that packets go: hosts are ends of paths, never inside: they forward nothing."""

import heapq

# Each cost is at least 1, so that no loop is free: of paths of one delay the one of fewer links is shorter.
LINK_SHARE = 1 << 20
RATE_SCALE = 10**15
# Links that a packet passes at most: its time to live has 8 bits.
MOST_LINKS = 255
# What a link costs, by the weight; it costs the same both ways.
WEIGHTS = {
    "hops": lambda link: 1,
    "delay": lambda link: link.delay * LINK_SHARE + 1,
    "rate": lambda link: -(-RATE_SCALE // link.rate),
    "cost": lambda link: link.cost if link.cost is not None else 1,
}


def distances(network, ends, costs, goal):
    """What the shortest path from each node to the goal costs; None where there is none."""
    found = [None] * len(network.nodes)
    best = {goal: 0}
    waiting = [(0, goal)]
    while waiting:
        past, node = heapq.heappop(waiting)
        if found[node] is not None:
            continue
        found[node] = past
        # A path to the goal may not pass through a host.
        if network.nodes[node].kind == "host" and node != goal:
            continue
        for _, far, link in ends[node]:
            other, total = network.ifaces[far].node, past + costs[link]
            if found[other] is None and total < best.get(other, total + 1):
                best[other] = total
                heapq.heappush(waiting, (total, other))
    return found


def next_ifaces(network, ends, costs, goal, spread):
    """The interface by which each node sends to the goal: on a shortest path the first, or, spread, one by number."""
    found = distances(network, ends, costs, goal)
    hops = distances(network, ends, [1] * len(costs), goal) if spread else None
    chosen, nodes = [None] * len(network.nodes), network.nodes
    for node, past in enumerate(found):
        if past is None or node == goal:
            continue
        ways = [(own, network.ifaces[far].node, link) for own, far, link in ends[node]]
        # What is sent to a host that is not the goal does not go on.
        equal = [own for own, other, link in ways if (other == goal or nodes[other].kind == "router")
                 and found[other] is not None and found[other] + costs[link] == past]
        # A digit of the goal's number, another one at the next node, so that all ways of a tree are taken.
        digit = goal // len(equal) ** (hops[node] % 3) % len(equal) if spread else 0
        chosen[node] = equal[digit]
    return chosen


def parts(network):
    """The nodes that are joined by links, in groups, each with its nodes in order."""
    return [sorted(group) for group in pieces(range(len(network.nodes)), network.pairs())]


def pieces(nodes, pairs):
    """The nodes in groups that pairs of them join."""
    near = {node: [] for node in nodes}
    for one, other in pairs:
        near[one].append(other)
        near[other].append(one)
    seen, found = set(), []
    for start in nodes:
        group = [] if start in seen else [start]
        seen.add(start)
        for node in group:
            fresh = [other for other in dict.fromkeys(near[node]) if other not in seen]
            seen.update(fresh)
            group += fresh
        found += [group] if group else []
    return found


class Ways:
    """Follows packets through a network by its routes: the longest prefix decides."""

    def __init__(self, network):
        self.network = network
        self.owners = network.node_of_address()
        self.node_routes = network.node_routes()
        # For each interface its link and the interface at the far end.
        self.far = {}
        for number, link in enumerate(network.links):
            self.far[link.a], self.far[link.b] = (number, link.b), (number, link.a)

    def via(self, node, address):
        """The interface of the node's longest prefix that holds an address, or None."""
        held = (route for route in self.node_routes[node] if (address ^ route.prefix) >> 32 - route.length == 0)
        best = max(held, key=lambda route: route.length, default=None)
        return None if best is None else best.via

    def way(self, start, address, ttl=MOST_LINKS, first=None):
        """What a packet passes from a node to an address: [(node, its interface, link)], and the node where it arrives
        or None. A raw packet leaves by the first interface, whatever the routes say."""
        goal, node, passed = self.owners.get(address), start, []
        while node != goal:
            may_send = node == start or self.network.nodes[node].kind == "router"
            via = self.via(node, address) if may_send and len(passed) < ttl else None
            if first is not None and not passed:
                via = first
            if via is None:
                return passed, None
            link, far = self.far[via]
            passed.append((node, via, link))
            node = self.network.ifaces[far].node
        return passed, goal
