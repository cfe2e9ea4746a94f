"""Groups of nodes in a known shape: each maker gives the names of its nodes, which of them have hosts, and its links by
names.

To add a kind: a function that gives a `Shape`, and a line in KINDS; its keys in helps.py; a line in GROUPS of
tests/test_routes.py, and how many nodes and links there are in tests/test_spec.py."""

import itertools
from dataclasses import dataclass, field

from networks import errors, fields, limits

# The limits of nodes and links, for a sentence.
MOST_SAID = f"a topology has at most {limits.NODES:,} nodes and {limits.LINKS:,} links: leave hosts or nodes out"


@dataclass
class Shape:
    """`nodes` in order; `leaves` are those that the key `hosts` gives hosts to."""

    nodes: list = field(default_factory=list)
    leaves: list = field(default_factory=list)
    links: list = field(default_factory=list)
    hosts: int = 0


def numbered(name, count):
    """NAME-1, NAME-2 and so on."""
    return [f"{name}-{number}" for number in range(1, count + 1)]


def flat(nodes, links):
    """A shape each of whose nodes may have hosts."""
    return Shape(nodes, list(nodes), links)


def joined(links_of):
    """What makes a shape of NAME-1 and so on, of whose names a function gives the links."""
    def make_shape(table, _):
        nodes = numbered(table["name"], table["nodes"])
        return flat(nodes, list(links_of(nodes)))
    return make_shape


def star(table, _):
    """NAME in the middle, and NAME-1 and so on around it."""
    nodes = numbered(table["name"], table["nodes"])
    return Shape([table["name"], *nodes], nodes, [(table["name"], node) for node in nodes])


def grid(table, _):
    """NAME-ROW-COLUMN, each joined to those beside and below it."""
    name_of = {(row, column): f"{table['name']}-{row}-{column}"
               for row in range(1, table["rows"] + 1) for column in range(1, table["columns"] + 1)}
    near = [(here, there) for here in name_of for there in ((here[0], here[1] + 1), (here[0] + 1, here[1]))]
    return flat(list(name_of.values()), [(name_of[here], name_of[there]) for here, there in near if there in name_of])


def tree(table, _):
    """NAME is the root; each node of a level has `branches` below it, NAME-1, then NAME-1-1 and so on."""
    shape, level = Shape([table["name"]]), [table["name"]]
    for _ in range(table["levels"]):
        below = [(node, child) for node in level for child in numbered(node, table["branches"])]
        shape.links += below
        level = [child for _, child in below]
        shape.nodes += level
        if len(shape.nodes) > limits.GROUP_NODES:
            break
    shape.leaves = level
    return shape


def fat_tree(table, _):
    """Of Al-Fares, Loukissas and Vahdat (2008): k pods of k/2 upper and k/2 lower routers, (k/2)^2 core routers, k/2
    hosts a lower router."""
    k, name = table["k"], table["name"]
    half = k // 2
    core = numbered(f"{name}-core", half * half)
    shape = Shape(list(core), hosts=half)
    for pod in range(1, k + 1):
        upper, lower = (numbered(f"{name}-p{pod}-{level}", half) for level in ("up", "low"))
        shape.nodes += upper + lower
        shape.leaves += lower
        shape.links += [(core[number * half + port], upper[number]) for number in range(half) for port in range(half)]
        shape.links += [(above, below) for above in upper for below in lower]
    return shape


def random(table, chance):
    """A tree by chance, and further links by chance between nodes that have none."""
    nodes, count = numbered(table["name"], table["nodes"]), table["nodes"]
    pairs = [(chance.below(number), number) for number in range(1, count)]
    known = set(pairs)
    while len(pairs) < table["links"]:
        one, other = sorted((chance.below(count), chance.below(count)))
        if one != other and (one, other) not in known:
            known.add((one, other))
            pairs.append((one, other))
    return flat(nodes, [(nodes[one], nodes[other]) for one, other in pairs])


def counted(least):
    """The key `nodes` of most groups."""
    return {"nodes": fields.whole(least, limits.GROUP_NODES, "nodes")}


def even(value):
    """The k of a fat tree."""
    number = fields.whole(*limits.FAT_TREE, "ports of a router")(value)
    if number % 2:
        raise fields.Wrong(f"has to be even, and {number} is odd")
    return number


SIDE = fields.whole(1, limits.GROUP_NODES, "nodes")
# For each kind its maker and the keys that it has beside those of all groups.
KINDS = {
    "line": (joined(itertools.pairwise), counted(2)),
    "ring": (joined(lambda nodes: zip(nodes, nodes[1:] + nodes[:1])), counted(3)),
    "full": (joined(lambda nodes: itertools.combinations(nodes, 2)), counted(2)),
    "star": (star, counted(1)),
    "grid": (grid, {"rows": SIDE, "columns": SIDE}),
    "tree": (tree, {"branches": fields.whole(1, 64, "nodes"), "levels": fields.whole(1, 10, "levels")}),
    "fat-tree": (fat_tree, {"k": even}),
    "random": (random, {**counted(2), "links": fields.whole(1, limits.LINKS, "links")}),
}


def make(table, chance, place):
    """The shape of a group, whose keys were read."""
    kind = table["kind"]
    if kind == "random":
        count = table["nodes"]
        if chance is None:
            raise errors.Refused(place(), "a random group needs `seed = NUMBER` at the top of the SPEC")
        if not count - 1 <= table["links"] <= count * (count - 1) // 2:
            least, most = count - 1, count * (count - 1) // 2
            raise errors.Refused(place("links"), f"{count} nodes are joined by {least:,} links at least and {most:,} "
                                                 f"at most, not {table['links']:,}")
    shape = KINDS[kind][0](table, chance)
    if len(shape.nodes) > limits.NODES or len(shape.links) > limits.LINKS:
        raise errors.Refused(place(), f"the group has {len(shape.nodes):,} nodes and {len(shape.links):,} links; "
                                      f"{MOST_SAID}")
    return shape
