"""Imports what has a line for each link: lists of edges, Rocketfuel's weights, and BRITE's topologies."""

import re
from fractions import Fraction

from networks import errors, found, units
from networks.found import Found, FoundLink, FoundNode

COMMENTS = ("#", "%", "//")
HEADS = ({"source", "target"}, {"from", "to"})
# What networkx writes behind the names.
DATA = re.compile(r"\{.*\}\s*$")
# Weights have a decimal or two; costs are whole.
COST_SCALE = 100
SECTION = re.compile(r"(Nodes|Edges):")
NODE_WORDS, EDGE_WORDS = 3, 6


def words_of(line):
    """The words of a line, by what parts them."""
    for mark in ("\t", ",", ";"):
        if mark in line:
            return [word.strip().strip('"') for word in line.split(mark)]
    return line.split()


def edges(name, text):
    """What a list of edges has: two names a line, parted by blanks, a comma, a semicolon or a tab, and perhaps a rate
    and a delay with their units."""
    made = Found("a list of edges")
    for count, line in enumerate(text.splitlines(), 1):
        line, at = line.strip(), f"{name}:{count}"
        data = DATA.search(line)
        words = [word for word in words_of(line[: data.start()] if data else line) if word]
        if not words or line.startswith(COMMENTS) or {word.lower() for word in words[:2]} in HEADS and not made.links:
            continue
        if len(words) < 2:
            raise errors.Refused(at, f"{errors.shown(line)} is no edge: a line has two names, and perhaps a rate and a "
                                     "delay; networkx writes such lines by write_edgelist, not by write_adjlist")
        for word in words[:2]:
            if word not in made.nodes:
                made.add_node(word, FoundNode(word, None, at))
        made.add_link(link_of(words, data[0].strip() if data else "", at))
    made.once()
    return made


def link_of(words, data, at):
    """A link, with what stands behind its names; a number without a unit is a remark."""
    link = FoundLink(*words[:2], at=at)
    remarks = [data] if data else []
    for word in joined(words[2:]):
        delay, rate = units.quantity(word, units.TIMES), found.rate_of(word)
        if delay is not None:
            link.delay = found.checked_delay(delay, at, errors.shown(word))
        elif rate is not None:
            link.rate = found.checked_rate(rate, at, errors.shown(word))
        else:
            remarks.append(word)
    link.remark = "".join(filter(str.isprintable, " ".join(remarks)[:60]))
    return link


def joined(words):
    """The words, a number and the unit behind it as one."""
    made = []
    for word in words:
        if made and re.fullmatch(r"[0-9.]+", made[-1]) and re.fullmatch(r"[A-Za-z]+(?:/s)?", word):
            made[-1] += f" {word}"
        else:
            made.append(word)
    return made


def lines_of(name, text):
    """(place, place, number, where) of each line."""
    for count, line in enumerate(text.splitlines(), 1):
        words, at = line.split(), f"{name}:{count}"
        if not words or words[0].startswith("#"):
            continue
        if len(words) != 3:
            raise errors.Refused(at, f"{errors.shown(line.strip())} has to be two places and a number, parted by "
                                     "blanks")
        yield words[0], words[1], found.number(words[2], at, "the number"), at


def latencies_of(name, text):
    """The latency of each pair of places, in nanoseconds."""
    return {frozenset((one, other)): found.checked_delay(round(value * 10**6), at, f"{float(value)} ms")
            for one, other, value, at in lines_of(name, text)}


def rocketfuel(name, text, latencies=None):
    """What Rocketfuel's inferred weights of a provider's network have; `latencies` are those of latencies_of. A line
    has two places and a weight, each link in both directions; a place is written "Town,+Country": a plus stands for a
    blank. Weights become costs of links, so that paths are those of the weights; a second file of the same form may
    have latencies in milliseconds."""
    made = Found("Rocketfuel weights")
    for one, other, weight, at in lines_of(name, text):
        if not 0 < weight * COST_SCALE <= 10**9:
            raise errors.Refused(at,
                                 f"the weight {float(weight)} has to be above 0 and at most {10**9 // COST_SCALE:,}")
        for word in (one, other):
            if word not in made.nodes:
                made.add_node(word, FoundNode(word.replace("+", " ").strip(), None, at))
        cost = max(1, round(Fraction(weight) * COST_SCALE))
        delay = (latencies or {}).get(frozenset((one, other)))
        made.add_link(FoundLink(one, other, None, delay, cost, f"weight {float(weight):g}", at))
    made.once()
    made.remarks.append(f"costs are {COST_SCALE} times the weights"
                        + ("" if latencies else "; delays are not known: the default holds, or give --latencies"))
    return made


def brite(name, text):
    """What a text of BRITE's has: sections of nodes and edges; delays are milliseconds, rates Mbit/s."""
    if not re.match(r"\s*Topology:", text):
        raise errors.Refused(f"{name}:1", 'it does not begin with "Topology:": this is no text of BRITE\'s')
    made, section = Found("BRITE"), None
    for count, line in enumerate(text.splitlines(), 1):
        words, at = line.split(), f"{name}:{count}"
        heading = SECTION.match(line.strip())
        if heading:
            section = heading[1]
        elif words and section == "Nodes":
            if len(words) < NODE_WORDS or not words[0].isdecimal():
                raise errors.Refused(at, f"{errors.shown(line.strip())} is no node: it begins with a number, x and y")
            made.add_node(words[0], FoundNode(f"n{words[0]}", None, at))
        elif words and section == "Edges":
            made.add_link(brite_link(words, line, at))
    if not section:
        raise errors.Refused(name, 'it has no section "Nodes:"')
    return made


def brite_link(words, line, at):
    """An edge: its number, its two nodes, its length, delay and rate."""
    if len(words) < EDGE_WORDS or not words[0].isdecimal():
        raise errors.Refused(at, f"{errors.shown(line.strip())} is no edge: it begins with its number, two nodes, "
                                 "length, delay and rate")
    delay = round(found.number(words[4], at, "the delay") * 10**6)
    rate = round(found.number(words[5], at, "the rate") * 10**6)
    # BRITE writes -1 for what it did not choose.
    rate = found.checked_rate(rate, at, f"{words[5]} Mbit/s") if rate >= 0 else None
    delay = found.checked_delay(delay, at, f"{words[4]} ms") if delay >= 0 else None
    return FoundLink(words[1], words[2], rate, delay, None, f"length {words[3]}", at)
