"""The page: one file with everything in it, by Graphviz and without."""

import html
import os
import re
from html.parser import HTMLParser

from networks import drawing
from networks.tests import tool

EMPTY = ("meta", "br", "hr", "img", "input", "link")


class Balanced(HTMLParser):
    """Whether each element that begins also ends."""

    def __init__(self):
        super().__init__()
        self.open, self.faults = [], []

    def handle_starttag(self, tag, attrs):
        self.open += [] if tag in EMPTY else [tag]

    def handle_startendtag(self, tag, attrs):
        pass

    def handle_endtag(self, tag):
        if not self.open or self.open.pop() != tag:
            self.faults.append((tag, self.getpos()))


class Pages(tool.Folder):
    def check(self, name, drawer):
        """The page is whole, loads nothing, says who drew it and has every node."""
        said, checked = self.done("show", tool.path_of(name))[0], Balanced()
        checked.feed(said)
        self.assertEqual((checked.open, checked.faults), ([], []))
        self.assertIn(drawer, said)
        addresses = set(re.findall(r"https?://[^\"'<> ]*", said))
        self.assertLessEqual(addresses, {"http://www.w3.org/2000/svg", "http://www.w3.org/1999/xlink"})
        for word in ("<script", " src=", "@import", "url("):
            self.assertNotIn(word, said)
        for node in tool.network_of(tool.example(name)).nodes:
            self.assertGreaterEqual(html.unescape(said).count(f">{node.name}<"), 2, node.name)

    @tool.needs_program("dot")
    def test_by_graphviz(self):
        for name in ("abilene", "fat-tree", "campus", "office"):
            self.check(name, "Drawn by Graphviz.")

    @tool.needs_program("dot")
    def test_a_network_with_places_is_a_map(self):
        spec, _ = self.done("import", os.path.join(tool.EXAMPLES, "research-40.graphml"))
        cut, _ = self.done("partition", self.file("x.toml", tool.made(spec)), "2")
        network = tool.network_of(cut)
        points = {node.name: drawing.points_of(network)[number] for number, node in enumerate(network.nodes)}
        self.assertLess(points["lisbon"][0], points["wien"][0])
        self.assertLess(points["roma"][1], points["oslo"][1])
        self.assertLess(abs(points["oslo-h1"][0] - points["oslo"][0]), 2 * drawing.BESIDE)
        self.assertIn("each node about where", tool.call("show", self.file("y.toml", cut))[1])
        self.assertIsNone(drawing.points_of(tool.network_of(tool.made(re.sub(", place = [^]]*]", "", spec)))))

    def test_the_globe_is_cut_where_nothing_is(self):
        found = drawing.flat({0: (-36.85, 174.76), 1: (37.77, -122.42), 2: (-33.87, 151.21)})
        self.assertEqual(sorted(found, key=lambda number: found[number][0]), [2, 0, 1])

    def test_without_graphviz(self):
        with tool.without(drawing.shutil, "which"):
            for name in ("abilene", "campus", "ring"):
                self.check(name, "Graphviz is not installed")

    def test_names_of_files_are_escaped(self):
        path = self.file("<b>&.toml", tool.example("ring"))
        self.assertIn("<h1>&lt;b&gt;&amp;.toml</h1>", tool.call("show", path)[1])
