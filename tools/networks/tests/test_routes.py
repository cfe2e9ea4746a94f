"""Routes: the tables decide as asked, paths are shortest, and comments stay."""

import itertools
import math
import unittest
from unittest import mock

from networks import chance, errors, limits, paths, routes, topology
from networks.tests import tool
from networks.paths import Ways

GROUPS = {
    "ring": 'kind = "ring"\nname = "r"\nnodes = 7\nhosts = 1',
    "grid": 'kind = "grid"\nname = "g"\nrows = 3\ncolumns = 4',
    "star": 'kind = "star"\nname = "s"\nnodes = 5\nhosts = 2',
    "line": 'kind = "line"\nname = "l"\nnodes = 4\nhosts = 1',
    "full": 'kind = "full"\nname = "f"\nnodes = 5',
    "tree": 'kind = "tree"\nname = "t"\nbranches = 3\nlevels = 2\nhosts = 1',
    "fat-tree": 'kind = "fat-tree"\nname = "ft"\nk = 4',
    "random": 'kind = "random"\nname = "x"\nnodes = 25\nlinks = 45\nhosts = 1',
}


def spec_of(kind, head=""):
    """A SPEC of one group, with flows among all its nodes."""
    flow = '[[flow]]\namong = "*"\npairs = "across"\ncount = 3\nstagger = "100 us"\n'
    return f'seed = 7\nstop = "100 ms"\n{head}\n[[group]]\n{GROUPS[kind]}\n{flow}'


def mixed(weight, spread):
    """A network by chance whose links differ, and in which hosts have several links."""
    lines = [spec_of("random", f'weight = "{weight}"\nspread = {spread}')]
    some = chance.Chance(3)
    for number in range(12):
        lines.append(f'[[node]]\nname = "h{number}"\nkind = "host"')
        for other in {1 + some.below(25), 1 + some.below(25)}:
            rate, delay = 10 ** (6 + some.below(4)), some.below(4) * 1000
            lines.append(f'[[link]]\na = "h{number}"\nb = "x-{other}"\nrate = {rate}\ndelay = {delay}\ncost = '
                         f'{1 + some.below(3)}')
    lines += [f'[[link]]\na = "x-{1 + some.below(12)}"\nb = "x-{13 + some.below(13)}"\nrate = '
              f'{10 ** (6 + some.below(4))}\ndelay = {some.below(3) * 10**6}' for _ in range(20)]
    return "\n".join(lines)


class Tables(unittest.TestCase):
    def test_the_longest_prefix_decides_as_asked(self):
        some = chance.Chance(1)
        for size in range(1, 60):
            addresses = sorted({some.below(1 << 12) for _ in range(size)})
            asked = [None if some.below(6) == 0 else some.below(3) for _ in addresses]
            found = routes.Tree(addresses, range(len(addresses))).table(asked)
            table = [topology.Route(0, prefix, length, via) for prefix, length, via in found]
            self.assertEqual(len({(route.prefix, route.length) for route in table}), len(table))
            self.assertLessEqual(len(table), sum(via is not None for via in asked))
            for address, via in zip(addresses, asked):
                if via is not None:
                    self.assertEqual(longest(table, address), via)

    def test_no_table_is_smaller(self):
        # All tables of few addresses are tried: prefixes of the addresses' tree, with each answer or none.
        some = chance.Chance(2)
        for _ in range(60):
            addresses = sorted({some.below(16) for _ in range(4)})
            asked = [some.below(2) for _ in addresses]
            tree = routes.Tree(addresses, range(len(addresses)))
            self.assertEqual(len(tree.table(asked)), least_table(tree, addresses, asked))

    def test_none_is_asked(self):
        for addresses in ([], [5, 9]):
            self.assertEqual(routes.Tree(addresses, range(len(addresses))).table([None] * len(addresses)), [])


def longest(table, address):
    """What the longest prefix says."""
    held = [route for route in table if (address ^ route.prefix) >> 32 - route.length == 0]
    return max(held, key=lambda route: route.length).via if held else None


def least_table(tree, addresses, asked):
    """How many prefixes the smallest table has, by trying all."""
    best = len(asked)
    for chosen in itertools.product((None, 0, 1), repeat=len(tree.prefixes)):
        table = [topology.Route(0, *place, via) for place, via in zip(tree.prefixes, chosen) if via is not None]
        if len(table) < best and [longest(table, address) for address in addresses] == asked:
            best = len(table)
    return best


class Paths(unittest.TestCase):
    def lengths(self, network, weight):
        """The cost of the way that packets go, for each two nodes; None where there is none."""
        ways, found = Ways(network), {}
        first = {iface.node: iface.address for iface in reversed(network.ifaces)}
        for start in range(len(network.nodes)):
            for goal, address in first.items():
                passed, end = ways.way(start, address)
                costs = (paths.WEIGHTS[weight](network.links[link]) for _, _, link in passed)
                found[start, goal] = sum(costs) if end is not None else None
        return found

    def test_shortest_by_all_pairs(self):
        for weight in ("hops", "delay", "rate"):
            network = tool.network_of(tool.made(mixed(weight, "false")))
            self.assertEqual(self.lengths(network, weight), floyd(network, weight))

    @tool.needs_module("networkx")
    def test_networkx_finds_none_shorter(self):
        for weight, spread in (("hops", "true"), ("delay", "false"), ("delay", "true"), ("rate", "true")):
            network = tool.network_of(tool.made(mixed(weight, spread)))
            self.assertEqual(self.lengths(network, weight), by_networkx(network, weight))
        for kind in GROUPS:
            network = tool.network_of(tool.made(spec_of(kind)))
            self.assertEqual(self.lengths(network, "delay"), by_networkx(network, "delay"))

    def test_costs_of_a_spec_decide(self):
        text = 'weight = "cost"\nnode = [{name = "a"}, {name = "b"}, {name = "c"}]\n'
        text += 'link = [{a = "a", b = "b", cost = 9}, {a = "a", b = "c", cost = 2}, {a = "c", b = "b", cost = 3}]\n'
        network = tool.network_of(tool.made(text))
        passed, _ = Ways(network).way(0, network.ifaces[1].address)
        self.assertEqual([network.nodes[node].name for node, _, _ in passed], ["a", "c"])

    def test_a_host_with_one_link_has_a_default_route(self):
        network = tool.network_of(tool.made(spec_of("star")))
        for node, own in zip(network.nodes, network.node_routes()):
            if node.kind == "host":
                self.assertEqual([(route.prefix, route.length) for route in own], [(0, 0)])

    def test_spread_uses_every_core(self):
        for spread, least in (("false", 1), ("true", 4)):
            network = tool.network_of(tool.made(spec_of("fat-tree", f'weight = "hops"\nspread = {spread}')))
            ways, last = Ways(network), len(network.nodes) - 1
            goals = [iface.address for iface in network.ifaces if network.nodes[iface.node].kind == "host"]
            used = {network.nodes[node].name for goal in goals for node, _, _ in ways.way(last, goal)[0]}
            self.assertGreaterEqual(sum("core" in name for name in used), least)


def floyd(network, weight):
    """Shortest paths between all nodes, hosts only at their ends: Floyd and Warshall's way."""
    nodes = range(len(network.nodes))
    found = {(one, other): 0 if one == other else math.inf for one in nodes for other in nodes}
    for link, (one, other) in zip(network.links, network.pairs()):
        for pair in ((one, other), (other, one)):
            found[pair] = min(found[pair], paths.WEIGHTS[weight](link))
    for middle in (number for number in nodes if network.nodes[number].kind == "router"):
        for one, other in found:
            found[one, other] = min(found[one, other], found[one, middle] + found[middle, other])
    return {pair: None if price == math.inf else price for pair, price in found.items()}


def by_networkx(network, weight):
    """The same by networkx: links that leave a host only where the path begins."""
    import networkx

    graph, found = networkx.DiGraph(), {}
    for link, (one, other) in zip(network.links, network.pairs()):
        for left, right in ((one, other), (other, one)):
            # A host is two nodes: where paths begin, and where they end.
            begin = ("from", left) if network.nodes[left].kind == "host" else left
            price = min(paths.WEIGHTS[weight](link), graph.get_edge_data(begin, right, {}).get("weight", 1 << 80))
            graph.add_edge(begin, right, weight=price)
    for start, node in enumerate(network.nodes):
        begin = ("from", start) if node.kind == "host" else start
        lengths = networkx.single_source_dijkstra_path_length(graph, begin)
        found.update(((start, goal), 0 if start == goal else lengths.get(goal)) for goal in range(len(network.nodes)))
    return found


class Counts(unittest.TestCase):
    def test_routes_to_the_ends_of_flows_are_fewer_and_as_short(self):
        text = spec_of("random").replace('among = "*"\npairs = "across"', 'from = "x-1-h1"\nto = ["x-9-h1", "x-20-h1"]')
        every = tool.network_of(tool.made(text))
        few = tool.network_of(tool.made("only_flows = true\n" + text))
        self.assertLess(len(few.routes), len(every.routes) / 2)
        for source in every.sources:
            back = next(iface.address for iface in every.ifaces if iface.node == source.node)
            goal = every.node_of_address()[source.to]
            self.assertEqual(Ways(every).way(source.node, source.to), Ways(few).way(source.node, source.to))
            self.assertEqual(Ways(every).way(goal, back), Ways(few).way(goal, back))

    def test_too_many_routes_are_refused_with_advice(self):
        every = tool.network_of(tool.made(spec_of("random")))
        some = tool.network_of(tool.made(spec_of("random").replace('among = "*"\npairs = "across"',
                                                                   'from = "x-1"\nto = "x-2"')))
        needs = r"would need \d+ routes, and at most"
        fewer = rf'node "x-\d+" {needs} 5 may be: route only to the ends of flows, which are \d+ \('
        with mock.patch.object(limits, "NODE_ROUTES", 5), self.assertRaisesRegex(errors.Refused, fewer):
            routes.computed(some, "hops", True, "x.toml")
        # Where flows end everywhere it would not help to route to their ends alone.
        for spread, advice in ((True, "leave out spread or have fewer routers"), (False, "have fewer routers")):
            said = rf"the network {needs} 20 may be: {advice}$"
            with mock.patch.object(limits, "ROUTES", 20), self.assertRaisesRegex(errors.Refused, said):
                routes.computed(every, "hops", spread, "x.toml")
