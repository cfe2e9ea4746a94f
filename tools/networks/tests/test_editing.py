"""TOML texts and where their parts stand; names; units; texts that are edited: routes and partitions change, and all
else stays as it stood."""

import tomllib
import unittest

from networks import editing, errors, names, spans, toml, units
from networks.tests import tool

HEAD = '# begin\nformat = 1\nstop = 1000000\nmtu = 1500\n'
NODES = """node = [ {name = "a", kind = "host", partition = 0},  # first
  {name = "b", kind = "host", partition=0 , ports = [9]} ]
"""
IFACES = ('iface = [{name = "a0", node = "a", address = "10.0.0.1", queue = 4}, '
          '{name = "b0", node = "b", address = "10.0.0.2", queue = 4}]\n')
LINKS = 'link = [{a = "a0", b = "b0", rate = 8000000, delay = 0}]  # the link\n'
ROUTES = """route = [
  # above
  {node = "a", to = "0.0.0.0/0", via = "a0"},   # stays
  {node = "b", to = "10.0.0.0/24", via = "b0"}, # goes
]   # behind
# end
"""
BLOCKS = ('[[route]] # one\nnode = "a"  # of a\nto = "0.0.0.0/0"\nvia = "a0"\n\n# between\n[[source]]\nkind = "cbr"\n'
          'node = "a"\nto = "10.0.0.2"\nsport = 1\ndport = 9\nsize = 1\nstart = 0\ninterval = 1\ncount = 1\n')
WANTED = [{"node": "a", "to": "0.0.0.0/0", "via": "a0"}, {"node": "b", "to": "0.0.0.0/0", "via": "b0"}]
TEXT = '''# a comment with = [ { "
top = 1   # behind
odd."key one".x = 'its'
long = """two
"quotes" # inside"""
array = [
  {name = "a#]}", at = [1, 2]},  # one
  {name = "b", "at" = []},
]
[table]
inner = 2
[[block]]
name = "c"

[[block]]
name = "d" # last
[block.below]
x = 1
'''


class Texts(unittest.TestCase):
    def test_each_value_stands_where_it_is_said_to(self):
        root = spans.read(TEXT)
        for way, value in ((("top",), "1"), (("odd", "key one", "x"), "'its'"), (("array", 0, "name"), '"a#]}"'),
                           (("array", 1, "at"), "[]"), (("table", "inner"), "2"),
                           (("long",), '"""two\n"quotes" # inside"""')):
            self.assertEqual(TEXT[root.at(*way).start : root.at(*way).end], value)
        self.assertEqual([TEXT[table.at("name").start + 1] for table in root.at("block").members], ["c", "d"])
        self.assertEqual(spans.line_of(TEXT, root.at("block", 1).start), 15)
        self.assertEqual(toml.Text("t", TEXT).means["block"][1]["below"]["x"], 1)

    def test_a_text_that_is_no_toml_is_refused_with_its_line(self):
        with self.assertRaisesRegex(errors.Refused, r"^x: this is no TOML text: .*line 2"):
            toml.Text("x", "a = 1\nb = ]")
        with self.assertRaisesRegex(errors.Refused, "nested too deep"):
            toml.Text("x", "a = " + "[" * 100_000)

    def test_names_are_plain_and_short_and_never_the_same(self):
        given = names.Names()
        for word, name in (("Zürich HB", "zurich-hb"), ("zurich hb", "zurich-hb-2"), ("--", "node"), ("東京", "node-2")):
            self.assertEqual(given.give(word), name)
        long = "Ein sehr langer Name mit Großbuchstaben und Akzentén, sechzig Zeichen"
        found = {given.give(long) for _ in range(12)}
        self.assertEqual((len(found), [name for name in found if not names.is_name(name)]), (12, []))

    def test_an_interface_is_named_after_both_ends(self):
        given = names.Names()
        for one, other, name in (("a", "b", "a-b"), ("a", "b", "a-b-2"), ("a-b", "c", "a-b-c"),
                                 ("a", "b-c", "a-b-c-2")):
            self.assertEqual(given.between(one, other), name)
        both = given.between("x" * 32, "y" * 32)
        self.assertTrue(names.is_name(both) and "x" * 15 in both and "y" * 15 in both)
        self.assertTrue(names.is_name(given.between("a", "y" * 32)))

    def test_what_is_no_name(self):
        for word in ("", "-a", "A", "a_b", "a" * 33, "é", None, 3, "a\n"):
            self.assertFalse(names.is_name(word), word)

    def test_quantities_are_read_and_said(self):
        for text, number in (("2.5 ms", 2_500_000), ("10us", 10_000), ("1 s", 10**9), ("0.0000000001 s", 0)):
            self.assertEqual(units.quantity(text, units.TIMES), number)
        for text in ("", "5", "ms", "5 m", "-5 ms", "1e3 ms", "5  ms", "9" * 50 + " ms"):
            self.assertIsNone(units.quantity(text, units.TIMES), text)
        for number in (0, 1, 999, 1000, 1001, 2_000_008, 10**9, 10**15, 1_000_000_001):
            said = units.time_said(number)
            self.assertEqual(units.quantity(said, units.TIMES), number, said)
        self.assertEqual(units.rate_said(9_953_000_000), "9.953 Gbit/s")


class Editing(tool.Folder):
    def edited(self, text):
        said, _ = self.done("routes", self.file("x.toml", text))
        self.assertEqual(tomllib.loads(said)["route"], WANTED)
        self.assertEqual({**tomllib.loads(text), "route": WANTED}, tomllib.loads(said))
        self.assertEqual(self.done("routes", self.file("y.toml", said))[0], said)
        return said

    def test_comments_stay(self):
        for further, comments in ((ROUTES, ("# begin", "# first", "# the link", "# above", "  # stays",
                                            "# no more, b to 10.0.0.0/24 via b0: goes", "]   # behind", "# end")),
                                  ("", ("# the link\n\nroute = [",)), (BLOCKS, ("# one", "# of a", "# between"))):
            said = self.edited(HEAD + NODES + IFACES + LINKS + further)
            for comment in comments:
                self.assertIn(comment, said)

    def test_a_text_all_of_blocks(self):
        nodes = [f'[[node]]\nname = "{name}"\nkind = "host"\npartition = 0\n' for name in "ab"]
        ifaces = [f'[[iface]]\nname = "{node}0"\nnode = "{node}"\naddress = "10.0.0.{last}"\nqueue = 4\n'
                  for last, node in enumerate("ab", 1)]
        link = '[[link]]\na = "a0"\nb = "b0"\nrate = 8000000\ndelay = 0 # none\n'
        self.edited("\n".join([HEAD, *nodes, *ifaces, link]))

    def test_examples_lose_no_word(self):
        for name in ("office", "ring", "shift", "buffer", "campus"):
            said, _ = self.done("routes", tool.path_of(name))
            for line in tool.example(name).splitlines():
                self.assertIn(line.partition("#")[2].strip(), said)

    def test_a_flow_without_a_route_is_refused(self):
        nodes = 'node = [{name = "a", kind = "host"}, {name = "h", kind = "host"}, {name = "b", kind = "host"}]\n'
        ifaces = ", ".join(f'{{name = "{name}", node = "{name[0]}", address = "10.0.0.{last}", queue = 1}}'
                           for last, name in enumerate(("a0", "h0", "h1", "b0"), 1))
        links = 'link = [{a = "a0", b = "h0", rate = 1000, delay = 0}, {a = "h1", b = "b0", rate = 1000, delay = 0}]\n'
        source = ('source = [\n{kind = "echo", node = "a", to = "10.0.0.4", ident = 1, size = 1, start = 0, '
                  'interval = 1, count = 1}]\n')
        said = self.refused("routes", self.file("x.toml", f"{HEAD}{nodes}iface = [{ifaces}]\n{links}{source}"))
        self.assertIn('x.toml:9: source 0: there is no way by routers from node "a" to node "b"', said)

    def test_partitions_and_delays_are_put_in(self):
        text = (HEAD + NODES + IFACES + LINKS).replace(", partition = 0", "", 1)
        path = self.file("x.toml", text)
        said = editing.set_keys(text, "node", "partition", {0: 3, 1: 4})
        self.assertIn('{name = "a", kind = "host", partition = 3},  # first', said)
        self.assertIn("partition=4 , ports = [9]", said)
        self.done("partition", path, "1")

    @tool.needs_program("gpmetis")
    def test_a_cut_link_gets_a_delay(self):
        said, beside = self.done("partition", self.file("x.toml", HEAD + NODES + IFACES + LINKS), "2")
        self.assertIn("delay = 1}]  # the link", said)
        self.assertIn("the delay of a to b is now 1 ns", beside)
        self.assertEqual([node["partition"] for node in tomllib.loads(said)["node"]], [0, 1])
