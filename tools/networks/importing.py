"""A SPEC from a file of another maker's, which says what it took and from where.

To add a format: a function of a name and a text, which gives a `Found` (found.py); a line in READERS, one in
`format_of`, and the word in command.py; what is taken of it in helps.py; a file in tests/data, and its mistakes in
tests/test_imports.py."""

import os
import re

from networks import errors, found, graphs, limits, lists, names, paths, toml, units, writing

READERS = {"graphml": graphs.graphml, "gml": graphs.gml, "edges": lists.edges, "rocketfuel": lists.rocketfuel,
           "brite": lists.brite}
# So many letters leave room for -h1 to -h1023 behind them.
LONGEST = limits.NAME_LENGTH - 6
# With more routers than this there is no room for a host behind each.
MOST_WITH_HOSTS = limits.NODES // 2


def format_of(name, text):
    """Which format a file has, by its text and then by its name."""
    begin = text.lstrip("\ufeff \t\r\n")[:4000]
    if begin.startswith("<"):
        return "graphml"
    if begin.startswith("Topology:"):
        return "brite"
    if name.lower().endswith(".gml") or re.search(r"^\s*graph\s*(?:#.*)?\s*\[", begin, re.MULTILINE):
        return "gml"
    if name.lower().endswith((".intra", ".weights")) or re.match(r"[^\s,]+,\+?\S* +[^\s,]+,\+?\S* +[0-9.]+\s", begin):
        return "rocketfuel"
    if name.lower().endswith((".graphml", ".xml")):
        return "graphml"
    return "edges"


def read(words):
    """What the file has."""
    text = toml.octets(words.file)
    kind = words.format or format_of(words.file, text)
    if kind == "edges" and text.lstrip().startswith(("{", "[")):
        raise errors.Refused(words.file, "JSON is not read: networkx's write_graphml writes what is")
    if words.latencies and kind != "rocketfuel":
        raise errors.Refused("", "--latencies stands with Rocketfuel weights: for other files say --format rocketfuel, "
                                 "or leave it out")
    if kind == "rocketfuel" and words.latencies:
        latencies = lists.latencies_of(words.latencies, toml.octets(words.latencies))
        return lists.rocketfuel(words.file, text, latencies)
    return READERS[kind](words.file, text)


def joined(made, name, is_largest):
    """Refuses a network in pieces, or leaves its largest piece."""
    if not made.nodes:
        raise errors.Refused(name, f"there is no node in it (read as {made.kind})")
    several = sorted(paths.pieces(made.nodes, [(link.a, link.b) for link in made.links]), key=len, reverse=True)
    if len(several) == 1:
        return
    one, other = (made.nodes[piece[0]] for piece in several[:2])
    if not is_largest:
        sizes = ", ".join(f"{len(piece)}" for piece in several[:5]) + (", .." if len(several) > 5 else "")
        raise errors.Refused(other.at, f"the network is in {len(several)} pieces of {sizes} nodes: no links lead from "
                                       f"{errors.shown(one.label)} to {errors.shown(other.label)}; --largest takes the "
                                       "largest piece")
    made.remarks.append(f"{len(made.nodes) - len(several[0])} nodes outside the largest piece were left out")
    made.nodes = {key: node for key, node in made.nodes.items() if key in set(several[0])}
    made.links = [link for link in made.links if link.a in made.nodes]


def named(made):
    """The new name of each node; with each goes the name that a host behind it would have."""
    given, found_names = names.Names(), {}
    for key, node in made.nodes.items():
        # A label without a letter or number of a name is called after the node's id.
        word = names.plain(node.label) or f"n-{key}"
        while f"{(name := given.give(word, longest=LONGEST))}-h1" in given.taken:
            pass
        found_names[key] = name
        given.taken.add(f"{name}-h1")
    return found_names


def comment(text):
    """A text that may stand in a comment."""
    return "".join(letter if letter.isprintable() else "?" for letter in str(text)[:120])


def node_table(node, name):
    """A node as a table."""
    place = f", place = [{node.place[0]:.2f}, {node.place[1]:.2f}]" if node.place else ""
    return f'{{name = "{name}"{place}}}'


def link_table(link, name_of):
    """A link as a table."""
    rate = None if link.rate is None else units.rate_said(link.rate)
    delay = None if link.delay is None else units.time_said(link.delay)
    return writing.said({"a": name_of[link.a], "b": name_of[link.b], "rate": rate, "delay": delay, "cost": link.cost})


def renamed_lines(made, name_of):
    """The table of old and new names, of nodes whose name had to change."""
    changed = [(name_of[key], node.label) for key, node in made.nodes.items() if name_of[key] != node.label]
    width = max((len(new) for new, _ in changed), default=0)
    if not changed:
        return ["# Names are those of the file."]
    return [f"# {len(changed)} of {len(made.nodes)} names were changed; new name, old name:",
            *(f"#   {new.ljust(width)}  {comment(old)}" for new, old in changed)]


def ending(made):
    """Traffic to begin with, and the defaults, to be edited."""
    has_hosts = len(made.nodes) <= MOST_WITH_HOSTS and len(made.nodes) + len(made.links) <= limits.LINKS
    hosts, behind = (1, "   # hosts behind each router") if has_hosts else (0, "")
    lines = ["# Traffic to begin with: each sends to the one half the list away. Write your own.", "[[flow]]",
             f'among = "{"*-h1" if has_hosts else "*"}"', 'pairs = "across"', 'rate = "1 Mbit/s"', 'stagger = "50 us"',
             "", "[defaults]", f"node = {{hosts = {hosts}}}{behind}",
             'link = {rate = "1 Gbit/s", delay = "1 ms", queue = 100}   # what holds where a link says nothing else']
    return lines + (['host_link = {rate = "1 Gbit/s", delay = "10 us"}'] if has_hosts else [])


def spec_text(words):
    """The SPEC, and what is said of it, in lines."""
    made = read(words)
    joined(made, words.file, words.largest)
    found.delays_by_distance(made)
    name_of = named(made)
    weight = "cost" if any(link.cost is not None for link in made.links) else "delay"
    said = [f"{len(made.nodes)} nodes, {len(made.links)} links, read as {made.kind}"]
    for key in ("rate", "delay"):
        count = sum(getattr(link, key) is None for link in made.links)
        said += [f"{key}s that the file does not say: {count} of {len(made.links)}; the default holds for these "
                 "links"] if count else []
    said += made.remarks
    title = comment(os.path.basename(words.file)).replace("\\", "?").replace('"', "?")
    nodes = writing.array("node", (node_table(node, name_of[key]) for key, node in made.nodes.items()))
    links = writing.array("link", (link_table(link, name_of) for link in made.links),
                          (comment(link.remark) for link in made.links))
    lines = [f"# A SPEC for `network make`, imported from {title}.", *(f"# {comment(line)}" for line in said), "#",
             *renamed_lines(made, name_of), "", f'title = "Imported from {title}"', 'stop = "1 s"',
             f'weight = "{weight}"', "", nodes, "", links, "", *ending(made)]
    return "\n".join(lines) + "\n", said
