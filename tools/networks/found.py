"""What an importer finds in a file: nodes, links and what they say, in the file's own words."""

import math
import re
from dataclasses import dataclass, field
from fractions import Fraction

from networks import errors, limits, units

RATE_TEXT = re.compile(r"([0-9]+(?:\.[0-9]+)?)\s*([kKmMgGtT])\s*(?:b(?:it)?s?(?:ps|/s|/sec)?|bit/s)?(?![A-Za-z])")
# Of optical carriers: OC-1 has so many bits per second.
CARRIER_TEXT = re.compile(r"\bOC-?([0-9]{1,4})\b", re.IGNORECASE)
CARRIER = 51_840_000
NUMBER = re.compile(r"[+-]?[0-9]*\.?[0-9]+(?:[eE][+-]?[0-9]{1,3})?|[0-9]+\.")
SCALES = {"k": 10**3, "m": 10**6, "g": 10**9, "t": 10**12}
# A delay that a distance gives is at least this long (nanoseconds): two places of one city.
LEAST_DELAY = 10_000
# No number in a file is larger than this.
LARGEST = 10**18


@dataclass
class FoundNode:
    """`label` is its name in the file, `place` its latitude and longitude in degrees."""

    label: str
    place: tuple | None = None
    at: str = ""


@dataclass
class FoundLink:
    """`a` and `b` are keys of nodes; rate in bits per second, delay in nanoseconds; `remark` is for people."""

    a: object
    b: object
    rate: int | None = None
    delay: int | None = None
    cost: int | None = None
    remark: str = ""
    at: str = ""


@dataclass
class Found:
    kind: str
    nodes: dict = field(default_factory=dict)
    links: list = field(default_factory=list)
    remarks: list = field(default_factory=list)

    def add_node(self, key, node):
        """A node, whose key is new."""
        if key in self.nodes:
            raise errors.Refused(node.at, f"two nodes have the id {errors.shown(key)}: the other one is at "
                                          f"{self.nodes[key].at}")
        if len(self.nodes) >= limits.NODES:
            raise errors.Refused(node.at, f"there are more than {limits.NODES:,} nodes, and a topology has at most so "
                                          "many: leave some out")
        self.nodes[key] = node

    def add_link(self, link):
        """A link between nodes that are there; one from a node to itself is left out."""
        for end in (link.a, link.b):
            if end not in self.nodes:
                raise errors.Refused(link.at, f"there is no node {errors.shown(end)}")
        if link.a == link.b:
            self.remarks.append(f"{link.at}: a link from {errors.shown(self.nodes[link.a].label)} to itself was left "
                                "out")
            return
        if len(self.links) >= limits.LINKS:
            raise errors.Refused(link.at, f"there are more than {limits.LINKS:,} links, and a topology has at most so "
                                          "many: leave some out")
        self.links.append(link)

    def once(self):
        """Leaves one of links between the same two nodes: where a file has each direction."""
        known = {}
        for link in self.links:
            known.setdefault(frozenset((link.a, link.b)), link)
        if len(known) < len(self.links):
            self.remarks.append("lines left out, for an earlier one joins the same nodes: "
                                f"{len(self.links) - len(known)}")
        self.links = list(known.values())


def rate_of(text):
    """The rate that a text such as "10 Gbps" or "OC-48" says, or None."""
    carrier = CARRIER_TEXT.search(text)
    if carrier:
        return int(carrier[1]) * CARRIER
    found = RATE_TEXT.search(text) if len(text) < 200 else None
    return round(Fraction(found[1]) * SCALES[found[2].lower()]) if found else None


def checked_rate(rate, at, said):
    """The rate, if a link may have it."""
    low, high = limits.RATE
    if not low <= rate <= high:
        raise errors.Refused(at, f"{said} is a rate of {rate:,} bits per second, and a link has {low:,} to {high:,}")
    return rate


def checked_delay(delay, at, said):
    """The delay, if a link may have it."""
    if not limits.DELAY[0] <= delay <= limits.DELAY[1]:
        raise errors.Refused(at, f"{said} is a delay of {delay:,} nanoseconds, and a link has at most "
                                 f"{limits.DELAY[1]:,}")
    return delay


def number(text, at, said):
    """A number in decimal, exactly."""
    value = Fraction(text) if len(text) <= 40 and NUMBER.fullmatch(text) else None
    if value is None or abs(value) > LARGEST:
        raise errors.Refused(at, f"{said} is {errors.shown(text)}, and has to be a number of a usual size")
    return value


def metres(one, other):
    """The distance of two places on a ball as great as the earth."""
    (south, west), (north, east) = ([math.radians(part) for part in place] for place in (one, other))
    half = math.sin((north - south) / 2) ** 2 + math.cos(south) * math.cos(north) * math.sin((east - west) / 2) ** 2
    return 2 * limits.EARTH_RADIUS_METRES * math.asin(min(1, math.sqrt(half)))


def delays_by_distance(found):
    """Gives links that say no delay the one of their distance, in whole 10 microseconds: finer is not known."""
    count = 0
    for link in found.links:
        places = [found.nodes[end].place for end in (link.a, link.b)]
        if link.delay is None and None not in places:
            distance = metres(*places)
            steps = round(distance * limits.FIBRE_NANOSECONDS_A_METRE / LEAST_DELAY)
            link.delay = max(1, steps) * LEAST_DELAY
            link.remark = ", ".join(part for part in (f"{distance / 1000:.0f} km", link.remark) if part)
            count += 1
    if count:
        scale = f"at {limits.FIBRE_NANOSECONDS_A_METRE} ns a metre, in steps of {units.time_said(LEAST_DELAY)}"
        found.remarks.append(f"delays that are the distance of the places: {count}, {scale}")


def place_of(latitude, longitude, at):
    """A place on the earth."""
    north, east = float(number(latitude, at, "the latitude")), float(number(longitude, at, "the longitude"))
    if abs(north) > 90 or abs(east) > 360:
        raise errors.Refused(at, f"{latitude}, {longitude} is no place: the latitude is -90 to 90 degrees, the "
                                 "longitude -180 to 180")
    return north, east
