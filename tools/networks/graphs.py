"""Imports GML, keys with numbers, texts, or lists in brackets, and GraphML, as the Internet Topology Zoo, networkx and
yEd write them: what they say of nodes and links in attributes, the Zoo's first."""

import html
import re
from xml.parsers import expat

from networks import errors, found, units
from networks.found import Found, FoundLink, FoundNode

LABELS = ("label", "name")
PLACES = (("latitude", "longitude"), ("lat", "lon"), ("lat", "lng"), ("lat", "long"))
# Texts that may say a rate, such as "10 Gbps", in the order in which they are looked at.
RATE_TEXTS = ("linklabel", "linkspeedtext", "bandwidth", "capacity", "rate", "speed")
DELAY_TEXTS = ("delay", "latency")
TOKEN = re.compile(r'\s*(?:#[^\n]*\n\s*)*(?:(?P<list>\[)|(?P<end>\])|"(?P<text>[^"]*)"|(?P<word>[^\s\[\]"]+))')
KEY = re.compile(r"[A-Za-z_][A-Za-z0-9_]*")
DEEPEST = 20


def lowered(attributes):
    """The attributes by names in small letters."""
    return {str(key).lower(): str(value).strip() for key, value in attributes.items()}


def rate_of(held, at):
    """The rate that attributes of a link say: exactly, by a number with its unit, or in a text."""
    if held.get("linkspeedraw"):
        return found.checked_rate(round(found.number(held["linkspeedraw"], at, "LinkSpeedRaw")), at,
                                  f"LinkSpeedRaw {held['linkspeedraw']}")
    if held.get("linkspeed") and held.get("linkspeedunits", "")[:1].lower() in found.SCALES:
        scale = found.SCALES[held["linkspeedunits"][0].lower()]
        said = f"LinkSpeed {held['linkspeed']} {held['linkspeedunits']}"
        return found.checked_rate(round(found.number(held["linkspeed"], at, "LinkSpeed") * scale), at, said)
    for name in RATE_TEXTS:
        rate = found.rate_of(held.get(name, ""))
        if rate is not None:
            return found.checked_rate(rate, at, errors.shown(held[name]))
    return None


def delay_of(held, at):
    """The delay that attributes of a link say, where they say its unit."""
    for name in DELAY_TEXTS:
        delay = units.quantity(held.get(name, ""), units.TIMES)
        if delay is not None:
            return found.checked_delay(delay, at, errors.shown(held[name]))
    return None


def add(made, kind, ends, attributes, at, what):
    """Adds a node or an edge; `ends` has its id, or those of its nodes; `what` is what the file calls one of them."""
    for name in ("id",) if kind == "node" else ("source", "target"):
        if name not in ends:
            raise errors.Refused(at, f'this {kind} has no {what} "{name}"')
    held = lowered(attributes)
    if kind == "node":
        label = next((held[name] for name in LABELS if held.get(name)), str(ends["id"]))
        place = next((found.place_of(held[north], held[east], at) for north, east in PLACES
                      if held.get(north) and held.get(east)), None)
        made.add_node(ends["id"], FoundNode(label, place, at))
    else:
        remark = "".join(filter(str.isprintable, (held.get("linklabel") or held.get("label") or "")[:60]))
        rate, delay = rate_of(held, at), delay_of(held, at)
        made.add_link(FoundLink(ends["source"], ends["target"], rate, delay, None, remark, at))


class Gml:
    """Reads a GML text into lists of (key, value, line)."""

    def __init__(self, name, text):
        self.name, self.text, self.place = name, text, 0
        self.counted, self.line = 0, 1

    def at(self):
        """The line that was read last."""
        self.line += self.text.count("\n", self.counted, self.place)
        self.counted = self.place
        return f"{self.name}:{self.line}"

    def token(self):
        """The next token, or None at the end."""
        found = TOKEN.match(self.text, self.place)
        if not found and self.text[self.place :].strip() and not self.text[self.place :].lstrip().startswith("#"):
            raise errors.Refused(self.at(), "a text in quotes has no end")
        self.place = found.end() if found else self.place
        return found

    def pairs(self, depth=0):
        """The keys and values up to the end of a list."""
        found = []
        while True:
            token = self.token()
            if token is None or token["end"]:
                if (token is None) != (depth == 0):
                    raise errors.Refused(self.at(), "a list has no closing bracket" if token is None
                                         else "a closing bracket has no opening one")
                return found
            if not token["word"] or not KEY.fullmatch(token["word"]):
                raise errors.Refused(self.at(), f"{errors.shown(token[0].strip())} stands where a key has to")
            at, value = self.at(), self.token()
            if value is None or value["end"]:
                raise errors.Refused(at, f'key "{token["word"]}" has no value')
            if value["list"] and depth >= DEEPEST:
                raise errors.Refused(at, f"lists are nested more than {DEEPEST} deep")
            word = value["word"] if value["text"] is None else html.unescape(value["text"])
            found.append((token["word"], self.pairs(depth + 1) if value["list"] else word, at))


def gml(name, text):
    """What a GML text has."""
    graphs = [(held, at) for key, held, at in Gml(name, text).pairs() if key == "graph"]
    if len(graphs) != 1 or not isinstance(graphs[0][0], list):
        raise errors.Refused(name, "it has no list `graph [ .. ]`, or several: this is no GML of one network")
    made = Found("GML")
    # An edge may stand before its nodes.
    for key, held, at in sorted(graphs[0][0], key=lambda it: it[0] == "edge"):
        if key in ("node", "edge"):
            if not isinstance(held, list):
                raise errors.Refused(at, f'"{key}" has to be a list in brackets')
            texts = {name: value for name, value, _ in held if isinstance(value, str)}
            add(made, key, texts, texts, at, "key")
    if any(key == "directed" and held == "1" for key, held, _ in graphs[0][0]):
        # Each direction of a link has an edge of its own.
        made.once()
    return made


def plain(tag):
    """A tag without its name space."""
    return tag.rpartition(":")[2]


class GraphMl:
    """Takes the elements of a GraphML text one after the other, each with its line."""

    def __init__(self, name):
        self.name, self.found, self.keys = name, Found("GraphML"), {}
        self.seen_graph = self.is_directed = False
        # The nodes and edges, and that which is open: its kind, its attributes of XML, its data, its line.
        self.all, self.open = [], None
        self.data_key, self.data_text = None, ""
        # The text was decoded already, whatever its first line says of an encoding.
        self.parser = expat.ParserCreate("UTF-8")
        self.parser.StartElementHandler = self.start
        self.parser.EndElementHandler = self.end
        self.parser.CharacterDataHandler = self.characters
        self.parser.EntityDeclHandler = self.entity

    def at(self):
        """The line that is read."""
        return f"{self.name}:{self.parser.CurrentLineNumber}"

    def entity(self, *_):
        """Declared entities can be blown up, and no GraphML needs them."""
        raise errors.Refused(self.at(), "it declares an XML entity, which GraphML has no need of")

    def start(self, tag, held):
        tag = plain(tag)
        if tag == "graph":
            self.seen_graph = True
            self.is_directed = held.get("edgedefault") == "directed"
        elif tag == "key" and "id" in held:
            self.keys[held["id"]] = held.get("attr.name", held["id"])
        elif tag in ("node", "edge"):
            self.open = (tag, held, {}, self.at())
        elif tag == "hyperedge":
            raise errors.Refused(self.at(), "it has a hyperedge, and a link has two ends: write edges to a node in its "
                                            "place")
        elif tag == "data" and self.open:
            self.data_key, self.data_text = self.keys.get(held.get("key"), held.get("key", "")), ""

    def characters(self, text):
        if self.data_key is not None and len(self.data_text) < 10_000:
            self.data_text += text

    def end(self, tag):
        tag = plain(tag)
        if tag == "data" and self.open and self.data_key is not None:
            self.open[2][self.data_key] = self.data_text
            self.data_key = None
        elif tag in ("node", "edge") and self.open:
            self.all.append(self.open)
            self.open = None

    def read(self, text):
        try:
            self.parser.Parse(text.encode(), True)
        except expat.ExpatError as why:
            sentence = f"this is no XML text that can be read: {expat.ErrorString(why.code)} (column {why.offset + 1})"
            raise errors.Refused(f"{self.name}:{why.lineno}", sentence) from None
        if not self.seen_graph:
            raise errors.Refused(self.name, "it has no element <graph>: this is no GraphML")
        # An edge may stand before its nodes.
        for tag, held, data, at in sorted(self.all, key=lambda it: it[0] == "edge"):
            add(self.found, tag, held, data, at, "attribute")
        if self.is_directed:
            # Each direction of a link has an edge of its own.
            self.found.once()
        return self.found


def graphml(name, text):
    """What a GraphML text has."""
    return GraphMl(name).read(text)
