"""What traffic is expected where: the packets of each source, followed along the routes. Drops are not counted, and
queues are not either."""

from dataclasses import dataclass

from networks import limits
from networks.paths import Ways


@dataclass
class Traffic:
    """For each interface the packets and octets that it sends in the whole run; for each node the packets that it takes
    and those that it sends."""

    packets: list
    octets: list
    hops: list
    # For each source where it ends: the number of a node, or None; and how many links away.
    ends: list
    lengths: list


def packets_of(network, source):
    """How many packets a source sends before the end of the run."""
    if source.start >= network.stop:
        return 0
    return min(source.count, (network.stop - source.start - 1) // source.interval + 1)


def expected(network):
    """The traffic of a network."""
    ways = Ways(network)
    found = Traffic([0] * len(network.ifaces), [0] * len(network.ifaces), [0] * len(network.nodes), [], [])

    def follow(start, address, ttl, count, octets, first=None):
        passed, end = ways.way(start, address, ttl, first)
        for node, via, _ in passed:
            found.packets[via] += count
            found.octets[via] += octets
            found.hops[node] += count
        if passed:
            found.hops[network.ifaces[ways.far[passed[-1][1]][1]].node] += count
        return passed, end

    for source in network.sources:
        if source.kind == "raw":
            for (address, ttl), (count, octets) in source.goals.items():
                follow(source.node, address, ttl, count, octets, source.via)
            found.ends.append(None)
            found.lengths.append(0)
            continue
        count = packets_of(network, source)
        octets = count * (source.size + limits.HEADERS)
        passed, end = follow(source.node, source.to, source.ttl, count, octets)
        if source.kind == "echo" and passed and end is not None:
            follow(end, network.ifaces[passed[0][1]].address, 64, count, octets)
        found.ends.append(end)
        found.lengths.append(len(passed))
    return found


def load(network, traffic, iface, link):
    """The share of the run, in millionths, in which an interface would transmit what is expected of it."""
    nanoseconds = traffic.octets[iface] * 8 * 10**9 // network.links[link].rate
    return nanoseconds * 10**6 // network.stop


def lookahead(link):
    """The nanoseconds before which nothing can arrive over a link: its delay and the transmission of one octet."""
    return max(link.delay, limits.CUT_DELAY) + max(1, -(-8 * 10**9 // link.rate))
