"""Partitions: fair, certified, and the same network as in one."""

import re
import tomllib
from unittest import mock

from networks import coarse, cutting, errors, limits, partition, topology, traffic
from networks.tests import tool
from networks.tests.test_routes import spec_of

EXAMPLES = {"campus": 4, "abilene": 4, "fat-tree": 3, "ring": 3, "office": 2}
WHOLE = re.compile(r"partition = [0-9]+")


class Partitions(tool.Folder):
    def cut(self, text, count, by):
        """A text with partitions, as a file, and the same in one partition."""
        whole = self.file("whole.toml", WHOLE.sub("partition = 0", text))
        said, beside = self.done("partition", whole, count, "--by", by)
        self.assertEqual({node["partition"] for node in tomllib.loads(said)["node"]}, set(range(count)))
        self.assertEqual(WHOLE.sub("partition = 0", said), WHOLE.sub("partition = 0", text))
        return self.file("cut.toml", said), whole, beside

    def both(self, by):
        for name, count in EXAMPLES.items():
            with self.subTest(name=name):
                (path, _, beside), again = (self.cut(tool.example(name), count, by) for _ in range(2))
                self.assertIn("cut link", beside)
                self.assertEqual(path, again[0])
        path, _, beside = self.cut(tool.example("campus"), 4, by)
        self.assertEqual(tool.read(path), tool.example("campus"), "the places of the campus are found again")
        self.assertIn("north to south           0, 1       2,000,008    4,243            16.97", beside)

    test_metis = tool.needs_program("gpmetis")(lambda self: self.both("metis"))
    test_kernighan_lin = tool.needs_module("networkx")(lambda self: self.both("kernighan-lin"))

    @tool.needs_program("gpmetis")
    def test_few_channels(self):
        """Where a cut for even work has more channels than there may be, one with fewer is taken."""
        network = tool.network_of(tool.example("campus"))
        found = traffic.expected(network)
        even = network.channels(partition.split(network, found, 8, "metis")[0])
        with mock.patch.object(limits, "CHANNELS", even - 1):
            parts, how = partition.split(network, found, 8, "metis")
        self.assertLess(network.channels(parts), even)
        self.assertEqual(set(parts), set(range(8)))
        self.assertIn(f"parts of even work would have {even}", how)

    def certify(self, by, further=()):
        for name, count, *replicas in (*EXAMPLES.items(), *further):
            with self.subTest(name=name):
                path, whole, _ = self.cut(tool.example(name), count, by)
                self.nullsim("check", path)
                self.assertGreater(self.certified(path, whole, 2, *replicas), 0)

    @tool.needs_nullsim
    @tool.needs_program("gpmetis")
    def test_metis_is_certified(self):
        self.certify("metis", [("campus", 4, 2)])

    @tool.needs_nullsim
    @tool.needs_module("networkx")
    def test_kernighan_lin_is_certified(self):
        self.certify("kernighan-lin")

    def test_what_is_refused(self):
        path = self.file("x.toml", tool.example("ring"))
        self.assertIn("3 nodes cannot be shared out among 4 partitions", self.refused("partition", path, 4))
        for count in (0, 65, -1):
            self.assertIn("N has to be 1 to 64", self.refused("partition", path, "--", count))
        self.assertEqual(tool.call("partition", path, "two")[0], 2)

    def test_a_missing_package_is_said(self):
        with tool.without(cutting.shutil, "which"), tool.without(cutting, "module"):
            beside = self.refused("partition", self.file("x.toml", tool.example("ring")), 2, status=4)
        self.assertIn("METIS is not installed: apt-get install metis, or pip install pymetis; and networkx is not "
                      "installed for it", beside)
        self.assertIn("the Python that runs is /", beside)

    def test_pymetis_is_called_as_it_wants(self):
        # The package itself may not be there: what is handed to it has its form, and is the graph.
        class Fake:
            def Options(self, **words):
                return words

            def part_graph(self, count, xadj, adjncy, eweights, vweights, options):
                self.seen = (count, xadj, adjncy, eweights, vweights, options)
                return 0, [number % count for number in range(len(vweights))]

        fake = Fake()
        with tool.without(cutting.shutil, "which"), mock.patch.object(cutting, "module", {"pymetis": fake}.get):
            parts, how = cutting.cut([1, 2, 3], {(0, 1): 5, (1, 2): 7}, 2)
        self.assertEqual((parts, how), ([0, 1, 0], "METIS (pymetis)"))
        self.assertEqual(fake.seen, (2, [0, 1, 3, 4], [1, 0, 2, 1], [5, 5, 7, 7], [1, 2, 3],
                                     {"seed": cutting.SEED, "ufactor": cutting.UNEVEN}))

    def test_raw_sources_are_left_as_they_are(self):
        raw = '{kind = "raw", node = "n0", via = "n0a", packet = [{at = 5, data = "45"}]}, '
        text = tool.example("ring").replace("source = [\n  ", f"source = [\n  {raw}")
        self.assertIn(raw, text)
        path = self.file("x.toml", text)
        for word in ("routes", "show"):
            self.assertIn("raw", self.done(word, path)[0])

    def test_long_links_are_cut(self):
        network = tool.network_of(tool.example("campus"))
        self.assertEqual(coarse.groups_below(network, 2_000_008), [node.partition for node in network.nodes])

    def test_packets_are_those_of_the_sources(self):
        network = tool.network_of(tool.made(spec_of("line").replace('among = "*"', 'among = "*-h1"')))
        found = traffic.expected(network)
        self.assertEqual((found.lengths, sum(found.packets), sum(found.hops)), ([4] * 4, 4 * 4 * 3, 4 * 5 * 3))

    def test_lookahead_is_that_of_the_program(self):
        self.assertEqual(traffic.lookahead(topology.Link(0, 1, 2_000_000, 10_000_000)), 10_004_000)

    @tool.needs_nullsim
    def test_the_program_counts_the_same(self):
        for name in ("abilene", "campus"):
            network = tool.network_of(tool.example(name))
            found = {iface.name: count for iface, count in zip(network.ifaces, traffic.expected(network).packets)}
            self.assertEqual(self.measured(tool.path_of(name), "interface", "packets_out"), found)

    def test_mistakes_in_a_topology_have_their_place(self):
        text = tool.example("office")
        for old, new, said in (
            ('node = "gw", address = "192', 'node = "gv", address = "192',
             'x.toml:33: iface 8 ("gw-wan"): key "node": there is no node "gv"'),
            ('{name = "pc2", kind', '{name = "pc1", kind',
             'x.toml:16: node 1 ("pc1"): two nodes have the name "pc1": node 0 too'),
            ('address = "10.0.1.1"', 'address = "10.0.1.2"',
             'x.toml:26: iface 1 ("gw-pc1"): interface 0 has this address too'),
            ('a = "gw-wan", b', 'a = "gw-pc1", b', 'x.toml:26: iface 1 ("gw-pc1"): it is at 2 ends of links, and has '
                                                   'to be at one'),
            ("rate = 2000000,", "rate = 0,", 'x.toml:44: link 4: key "rate" has to be a whole number 1,000 to'),
            ('via = "pc2-eth0"', 'via = "pc1-eth0"', 'route 1: "pc1-eth0" is no interface of node "pc2"'),
            ("stop =", "stopp =", 'x.toml:11: key "stopp" is unknown; did you mean "stop"?'),
            ("queue = 5}, ", "queu = 5}, ", 'key "queu" is unknown; did you mean "queue"?'),
        ):
            self.assertIn(old, text)
            path = self.file("x.toml", text.replace(old, new, 1))
            for words in (("routes", path), ("partition", path, 2), ("show", path)):
                self.assertIn(said, self.refused(*words))
        with self.assertRaises(errors.Refused):
            tool.network_of("format = 1\n")
