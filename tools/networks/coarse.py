"""How a network is cut into partitions: as a graph whose nodes weigh their packets, and whose links cost those that
would cross.

For even work links with a lookahead below a bound are not cut: the nodes that they join are one node of a coarser
graph. The least lookahead of the cut links decides how far partitions run ahead of each other, so the bound is as high
as a fair sharing out of the work lets it be.

For few channels, where the cut for even work has more than there may be, links cost the same, so that the cheapest cut
has the fewest. Parts may be as uneven as it takes: the first of some bounds is taken whose cut has few enough channels,
or else the cut with the fewest, whose nodes are then moved one by one to the part with which most of their links join
them.
"""

import bisect
from collections import Counter
from itertools import repeat

from networks import cutting, limits, paths, traffic

# What one window costs beside one packet: at least a null message goes each way.
WINDOW_COST = 2
# Sums of weights have to fit in 31 bits.
MOST_SUM = 2**28
# A partition has at most so many hundredths of its fair share of the packets in and out, if that can be.
FAIR = 130
# How many bounds are tried.
TRIES = 8
# What a part may weigh more than its share, in thousandths.
UNEVEN = (100, 300, 1000, 3000)
# How often all nodes are looked at.
ROUNDS = 20


def scaled(numbers):
    """The numbers, each at least 1, made so small that their sum fits."""
    total = sum(numbers)
    return [max(1, number * MOST_SUM // total) for number in numbers] if total > MOST_SUM else numbers


def joined_costs(pairs, costs):
    """What it costs to part two nodes: the sum of what joins them; what joins a node to itself falls."""
    found = Counter()
    for (one, other), cost in zip(pairs, costs):
        if one != other:
            found[min(one, other), max(one, other)] += cost
    return found


def graph(network, found):
    """(weight of each node, {(node, node): cost}): expected packets in and out, where a node without any weighs a
    little too, so that all nodes are shared out; for each link the packets that would cross, and the null messages of
    windows that are as long as its lookahead."""
    costs = [1 + found.packets[link.a] + found.packets[link.b]
             + WINDOW_COST * -(-network.stop // traffic.lookahead(link)) for link in network.links]
    return scaled([hops + 1 for hops in found.hops]), joined_costs(network.pairs(), scaled(costs))


def groups_below(network, bound):
    """For each node the number of its group: nodes that links of a lookahead below the bound join."""
    nodes = range(len(network.nodes))
    near = [pair for pair, link in zip(network.pairs(), network.links) if traffic.lookahead(link) < bound]
    number_of = {node: number for number, group in enumerate(paths.pieces(nodes, near)) for node in group}
    return [number_of[node] for node in nodes]


def bounds(network, heavy, count):
    """The bounds that leave enough groups, none too heavy; the highest first, and last the one that forbids nothing."""
    most = max(sum(heavy) * FAIR // (100 * count), *heavy)

    def will_do(bound):
        shares = shares_of(groups_below(network, bound), heavy)
        return len(shares) >= count and max(shares) <= most

    # A lower bound has smaller groups.
    several = sorted({traffic.lookahead(link) for link in network.links}, reverse=True)
    rest = several[bisect.bisect_left(several, True, key=will_do):]
    if len(rest) > TRIES:
        rest = [rest[number * (len(rest) - 1) // (TRIES - 1)] for number in range(TRIES)]
    return [*rest, 0]


def shares_of(group_of, heavy):
    """What the groups weigh."""
    shares = [0] * (max(group_of) + 1)
    for group, weight in zip(group_of, heavy):
        shares[group] += weight
    return shares


def cut(network, found, count, by=None):
    """The partition of each node, and what cut. Of the bounds tried the highest with fair parts is taken, or else the
    one with the fairest."""
    heavy, costs = graph(network, found)
    best = None
    for bound in bounds(network, heavy, count):
        group_of = groups_below(network, bound)
        if max(group_of) + 1 < count:
            continue
        joined = joined_costs([(group_of[one], group_of[other]) for one, other in costs], costs.values())
        parts, how = cutting.cut(shares_of(group_of, heavy), joined, count, by)
        parts = [parts[group] for group in group_of]
        most = max(shares_of([*parts, count - 1], [*heavy, 0]))
        if len(set(parts)) == count and (best is None or most < best[0]):
            best = (most, parts, how)
        if best and best[0] * 100 * count <= FAIR * sum(heavy):
            break
    return (best[1], best[2]) if best else (parts, how)


def moved(near, parts):
    """The parts once nodes moved to where most links lead, as long as that cuts fewer links and empties no part."""
    parts, sizes = list(parts), Counter(parts)
    for _ in range(ROUNDS):
        before = list(parts)
        for node, pairs in enumerate(near):
            own, ties = parts[node], Counter()
            for other, links in pairs:
                ties[parts[other]] += links
            best = max(ties, key=lambda part: (ties[part], part == own, -part), default=own)
            if ties[best] > ties[own] and sizes[own] > 1:
                parts[node] = best
                sizes.update({own: -1, best: 1})
        if parts == before:
            break
    return parts


def cut_few(network, found, count, by=None):
    """The partition of each node with few channels, and what cut."""
    heavy, _ = graph(network, found)
    joined, best = joined_costs(network.pairs(), repeat(1)), None
    for uneven in UNEVEN:
        parts, how = cutting.cut(heavy, joined, count, by, uneven)
        if network.channels(parts) > limits.CHANNELS:
            parts = moved(cutting.neighbours(heavy, joined), parts)
        if best is None or network.channels(parts) < network.channels(best[0]):
            best = parts, how
        if network.channels(best[0]) <= limits.CHANNELS:
            break
    return best
