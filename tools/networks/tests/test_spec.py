"""SPECs: what is made of them, and what is refused, with its place and one sentence."""

import tomllib

from networks import errors
from networks.tests import tool
from networks.tests.test_routes import GROUPS, spec_of

TWO = '[[node]]\nname = "a"\n[[node]]\nname = "b"\n'
PAIR = TWO + '[[link]]\na = "a"\nb = "b"\n'
# SPECs, and what their refusals say.
REFUSED = tool.cases("refused-specs.txt")


class Specs(tool.Folder):
    def test_each_mistake_has_its_place_and_a_sentence(self):
        for said, text in REFUSED:
            with self.subTest(said=said):
                with self.assertRaises(errors.Refused) as caught:
                    tool.made(text)
                self.assertIn(said, str(caught.exception))
                self.assertEqual(str(caught.exception).count("\n"), 0)

    def test_nothing_is_written_where_a_spec_is_refused(self):
        for _, text in REFUSED[:8]:
            self.assertTrue(self.refused("make", self.file("x.spec.toml", text)).startswith("network: "))

    def test_files_that_cannot_be_read(self):
        for path, said in (("/nosuch", "/nosuch: it cannot be read: No such file or directory"),
                           (self.folder, "it cannot be read: Is a directory"),
                           (self.file("e", ""), "it is empty; a shell empties FILE before `.. FILE > FILE` runs: write "
                                                "to another file"),
                           (self.file("b", b"a = 1\xff"), "octet 5 is not UTF-8")):
            self.assertIn(said, self.refused("make", path))

    def test_more_channels_than_may_be(self):
        text = ('group = [{kind = "star", name = "s", nodes = 300, partition = 1}, '
                '{kind = "line", name = "l", nodes = 300}]\n')
        links = "".join(f'{{a = "s-{number}", b = "l-{number}"}},\n' for number in range(1, 301))
        said = "the partitions are joined by 600 channels .* and at most 512 may be: put nodes that many links join"
        with self.assertRaisesRegex(errors.Refused, said):
            tool.made(f"{text}link = [\n{links}]\n")

    def test_more_flows_and_ports_than_may_be(self):
        head = '[[group]]\nkind = "star"\nname = "s"\nnodes = 70\n'
        with self.assertRaisesRegex(errors.Refused, "there would be more than 1,024 flows: name fewer nodes"):
            tool.made(head + '[[flow]]\namong = "*"\npairs = "all"\n')
        flows = "".join(f'[[flow]]\nfrom = "s-1"\nto = "s"\ndport = {port}\n' for port in range(65))
        said = 'more than 64 ports of node "s" would be used: flows may share a port'
        with self.assertRaisesRegex(errors.Refused, said):
            tool.made(head + flows)

    def test_the_same_spec_makes_the_same_octets(self):
        for kind in GROUPS:
            self.assertEqual(tool.made(spec_of(kind)), tool.made(spec_of(kind)))
        self.assertNotEqual(tool.made(spec_of("random")), tool.made(spec_of("random").replace("seed = 7", "seed = 8")))
        self.assertTrue(tool.made(spec_of("random")).startswith("# Seed 7: "))
        self.assertTrue(tool.made(PAIR).startswith("# No seed: nothing here was chosen by chance."))

    def test_shapes_have_their_nodes_and_links(self):
        wanted = {"ring": (14, 14), "grid": (12, 17), "star": (16, 15), "line": (8, 7), "full": (5, 10),
                  "tree": (22, 21), "fat-tree": (36, 48), "random": (50, 70)}
        for kind, counts in wanted.items():
            network = tool.network_of(tool.made(spec_of(kind)))
            self.assertEqual((len(network.nodes), len(network.links)), counts, kind)

    def test_links_between_partitions_get_a_delay(self):
        text = PAIR.replace('name = "b"', 'name = "b"\npartition = 1') + "delay = 0\n"
        self.assertEqual(tomllib.loads(tool.made(text))["link"][0]["delay"], 1)
        self.assertIn("#   raised      the delay of links between partitions to 1 ns: a to b", tool.made(text))
        self.assertEqual(tomllib.loads(tool.made(text.replace("partition = 1", "")))["link"][0]["delay"], 0)

    def test_flows(self):
        flow = '[[flow]]\nfrom = "a"\nto = "b"\nrate = "8 Mbit/s"\nsize = 972\ndport = 53\nttl = 3\nfill = 7\n'
        echo = '[[flow]]\nkind = "echo"\nfrom = "b"\nto = "a"\ncount = 2\nstart = "1 ms"\n'
        made = tomllib.loads(tool.made(f'stop = "1 s"\n{PAIR}{flow}{echo}[defaults.link]\nqueue_octets = 9000\n'))
        self.assertEqual((made["format"], made["iface"][0]["queue_octets"], made["node"][1]["ports"]), (2, 9000, [53]))
        first, second = made["source"]
        self.assertEqual((first["interval"], first["count"], first["ttl"], first["fill"]), (1_000_000, 900, 3, 7))
        self.assertEqual((second["kind"], second["count"], second["start"], second["to"]),
                         ("echo", 2, 1_000_000, made["iface"][0]["address"]))

    def test_pairs(self):
        wanted = {"all": 20, "next": 5, "across": 5, "first": 4, "random": 5}
        for pairs, count in wanted.items():
            flow = f'[[flow]]\namong = ["l-*"]\npairs = "{pairs}"\n'
            network = tool.network_of(tool.made('seed = 1\n[[group]]\nkind = "line"\nname = "l"\nnodes = 5\n' + flow))
            self.assertEqual(len(network.sources), count, pairs)
            owners = network.node_of_address()
            self.assertTrue(all(owners[source.to] != source.node for source in network.sources))

    def test_a_network_as_great_as_may_be(self):
        text = ('[[group]]\nkind = "grid"\nname = "g"\nrows = 32\ncolumns = 32\n'
                '[[flow]]\namong = "*"\npairs = "across"\ncount = 1\n')
        network = tool.network_of(tool.made(text.replace("32", "16")))
        self.assertEqual(len(network.nodes), 256)
        self.assertLess(len(network.routes), 256 * 40)

    @tool.needs_nullsim
    def test_what_is_made_is_accepted_and_every_packet_arrives(self):
        for kind in GROUPS:
            with self.subTest(kind=kind):
                self.assertGreater(self.arrives(self.accepted(tool.made(spec_of(kind)))), 0)
        echo = spec_of("fat-tree").replace('among = "*"', 'kind = "echo"\ninterval = "1 ms"\namong = "*"')
        self.assertGreater(self.arrives(self.accepted(tool.made(echo))), 0)

    @tool.needs_nullsim
    def test_examples_arrive(self):
        for name in ("abilene", "fat-tree", "campus"):
            with self.subTest(name=name):
                self.assertGreater(self.arrives(tool.path_of(name)), 0)

    def test_examples_are_what_is_made_of_their_specs(self):
        for name in ("abilene", "fat-tree", "campus"):
            path = tool.path_of(f"{name}.spec")
            said, _ = self.done("make", path)
            self.assertEqual(said, tool.example(name), f"make it again: tools/network make {path}")
            self.assertLessEqual(tool.read(path).count("\n"), 40)
