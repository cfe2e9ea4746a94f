"""Imports of files of five kinds, and what is refused of them."""

import os
import tomllib

from networks.tests import tool

FILES = {"zoo.graphml": (5, 5), "towns.gml": (3, 2), "edges.txt": (4, 4), "weights.intra": (4, 4),
         "waxman.brite": (5, 5)}
GRAPH = '<graphml xmlns="x"><graph>\n{}</graph></graphml>'
NODES = '<node id="0"/>\n<node id="1"/>\n'
# What is said of files, with their names before it; one without a last line feed and one with too many nodes are here.
REFUSED = [
    *tool.cases("refused-files.txt"),
    ("a.graphml a.graphml:2: this is no XML text that can be read: no element found (column",
     "<graphml><graph>\n<node id='0'>"),
    ("a.graphml a.graphml:1026: there are more than 1,024 nodes",
     GRAPH.format("".join(f'<node id="{number}"/>\n' for number in range(1100)))),
]


class Imports(tool.Folder):
    def imported(self, name, *words):
        """The SPEC of a file of the tests."""
        return self.done("import", os.path.join(tool.DATA, name), *words)[0]

    def imported_from(self, name, text, *words):
        """The SPEC of a file with a text: the text, and what it means."""
        said, _ = self.done("import", *words, self.file(name, text))
        return said, tomllib.loads(said)

    def test_each_kind_becomes_a_spec_of_its_nodes_and_links(self):
        for name, (nodes, links) in FILES.items():
            said = self.imported(name)
            means = tomllib.loads(said)
            self.assertEqual((len(means["node"]), len(means["link"])), (nodes, links), name)
            made = tomllib.loads(tool.made(said))
            self.assertEqual((len(made["node"]), len(made["link"])), (2 * nodes, links + nodes), name)
            self.assertEqual(self.imported(name), said)

    def test_the_zoo_says_speeds_and_places(self):
        said = self.imported("zoo.graphml")
        links = tomllib.loads(said)["link"]
        self.assertEqual([link.get("rate") for link in links],
                         ["10 Gbit/s", "2.48832 Gbit/s", "155 Mbit/s", "2.5 Gbit/s", None])
        # Zürich to Bern is 95 km, which light in fibre takes 0.47 ms for.
        self.assertEqual([link.get("delay") for link in links], ["470 us", None, None, "650 us", "650 us"])
        self.assertEqual(tomllib.loads(said)["node"][0]["place"], [47.37, 8.54])
        self.assertIn("#   none-2                     None\n", said)
        self.assertIn("#   die-universitat-der-stadt  Die Universität der Stadt Genève am See\n", said)

    def test_a_directed_graph_has_each_link_once(self):
        edges = '<edge source="0" target="1"/><edge source="1" target="0"/>'
        graph = GRAPH.format(NODES + edges)
        for count, name, text in (
                (1, "a.graphml", graph.replace("<graph>", '<graph edgedefault="directed">')),
                (2, "a.graphml", graph.replace("<graph>", '<graph edgedefault="undirected">')),
                (1, "a.gml", "graph [ directed 1 node [ id 0 ] node [ id 1 ] edge [ source 0 target 1 ] edge [ source "
                             "1 target 0 ] ]")):
            self.assertEqual(len(self.imported_from(name, text)[1]["link"]), count)

    def test_gml_says_the_same(self):
        links = tomllib.loads(self.imported("towns.gml"))["link"]
        self.assertEqual((links[0]["rate"], links[1]["rate"], links[1]["delay"]), ("10 Gbit/s", "1 Gbit/s", "2 ms"))
        self.assertIn("#   wien-umgebung  Wien & Umgebung", self.imported("towns.gml"))

    def test_edges_say_rates_and_delays(self):
        links = tomllib.loads(self.imported("edges.txt"))["link"]
        self.assertEqual((links[0]["rate"], links[0]["delay"], links[1]["rate"], links[1]["delay"]),
                         ("10 Gbit/s", "3 ms", "10 Gbit/s", "4 ms"))
        _, means = self.imported_from("e.csv", "source,target,rate\nNew York,Los Angeles,10 Gbps\n")
        self.assertEqual(means["link"], [{"a": "new-york", "b": "los-angeles", "rate": "10 Gbit/s"}])

    def test_rocketfuels_weights_decide(self):
        latencies = os.path.join(tool.DATA, "latencies.intra")
        means = tomllib.loads(self.imported("weights.intra", "--latencies", latencies))
        self.assertEqual(means["weight"], "cost")
        self.assertEqual([(link["cost"], link["delay"]) for link in means["link"]],
                         [(450, "4 ms"), (300, "4 ms"), (225, "4 ms"), (2000, "9 ms")])

    def test_brite_says_milliseconds_and_megabits(self):
        links = tomllib.loads(self.imported("waxman.brite"))["link"]
        self.assertEqual((links[1]["delay"], links[1]["rate"], links[4].get("rate")), ("1.2 ms", "155 Mbit/s", None))

    def test_each_mistake_has_its_place_and_a_sentence(self):
        for line, text in REFUSED:
            name, _, wanted = line.partition(" ")
            with self.subTest(wanted=wanted):
                self.assertIn(wanted, self.refused("import", self.file(name, text)))

    def test_the_largest_piece(self):
        _, means = self.imported_from("a.txt", "a b\nb c\nd e\n", "--largest")
        self.assertEqual([node["name"] for node in means["node"]], ["a", "b", "c"])

    def test_names_that_clash_with_hosts_or_are_long(self):
        long = "ÉCOLE-" + "Très-Loin-" * 6
        for text, name, count in (("x-h1 x\nx y\n", "x-h1", 6),
                                  (f"{long} {long}2\n", "ecole-tres-loin-tres-loin", 4)):
            said, _ = self.imported_from("a.txt", text)
            self.assertIn(name, said)
            self.assertEqual(len(tomllib.loads(tool.made(said))["node"]), count)

    def test_a_network_too_large_for_hosts_has_none(self):
        text = "".join(f"n{number} n{number + 1}\n" for number in range(600))
        _, means = self.imported_from("a.txt", text)
        self.assertEqual((means["defaults"]["node"]["hosts"], means["flow"][0]["among"]), (0, "*"))

    @tool.needs_nullsim
    def test_what_is_imported_arrives(self):
        for name in FILES:
            with self.subTest(name=name):
                self.assertGreater(self.arrives(self.accepted(tool.made(self.imported(name)))), 0)
