"""Cuts a weighted graph into parts: by METIS where it is installed, or else by Kernighan and Lin's way in networkx."""

import importlib
import itertools
import os
import pathlib
import shutil
import subprocess
import sys
import tempfile

from networks import errors

# The same graph is cut the same way each time.
SEED = 1
# What METIS allows a part to weigh more than its share, in thousandths.
UNEVEN = 100
SECONDS = 120


def module(name):
    """A package, or nothing where it is not installed."""
    try:
        return importlib.import_module(name)
    except ImportError:
        return None


def cut(weights, costs, count, by=None, uneven=UNEVEN):
    """The part of each node, and what cut: `by` is metis, kernighan-lin or None. By METIS a part weighs at most so many
    thousandths more than its share."""
    if by in (None, "metis"):
        program = shutil.which("gpmetis")
        if program:
            return by_program(program, weights, costs, count, uneven), "METIS (gpmetis)"
        if module("pymetis"):
            return by_pymetis(weights, costs, count, uneven), "METIS (pymetis)"
    if by in (None, "kernighan-lin") and module("networkx"):
        return by_kernighan_lin(weights, costs, count), "Kernighan-Lin (networkx)"
    python = f"the Python that runs is {sys.executable}"
    metis = "METIS is not installed: apt-get install metis, or pip install pymetis"
    other = f"networkx is not installed for it: apt-get install python3-networkx, or pip install networkx ({python})"
    what = {"metis": f"{metis} ({python})", "kernighan-lin": f"Kernighan-Lin needs networkx; {other}"}
    raise errors.Lacking(what.get(by, f"{metis}; and {other}"))


def neighbours(weights, costs):
    """For each node (other node, cost), in order."""
    found = [[] for _ in weights]
    for (one, other), cost in costs.items():
        found[one].append((other, cost))
        found[other].append((one, cost))
    return [sorted(pairs) for pairs in found]


def by_program(program, weights, costs, count, uneven):
    """By gpmetis, which reads a file and writes one."""
    lines = [f"{len(weights)} {len(costs)} 011"]
    for weight, pairs in zip(weights, neighbours(weights, costs)):
        lines.append(" ".join([str(weight), *(f"{other + 1} {cost}" for other, cost in pairs)]))
    with tempfile.TemporaryDirectory(prefix="network.") as folder:
        path, made = (os.path.join(folder, name) for name in ("graph", f"graph.part.{count}"))
        pathlib.Path(path).write_text("\n".join(lines) + "\n", encoding="ascii")
        words = [program, f"-seed={SEED}", f"-ufactor={uneven}", "-ptype=rb" if count < 9 else "-ptype=kway", path,
                 str(count)]
        ended = subprocess.run(words, stdout=subprocess.PIPE, stderr=subprocess.STDOUT, timeout=SECONDS, check=False)
        if ended.returncode or not os.path.exists(made):
            raise errors.Refused("", f"{program} failed: {ended.stdout.decode(errors='replace').strip()[-200:]}")
        return list(map(int, pathlib.Path(made).read_text(encoding="ascii").split()))


def by_pymetis(weights, costs, count, uneven):
    """By the package pymetis."""
    near, metis = neighbours(weights, costs), module("pymetis")
    starts = [0, *itertools.accumulate(map(len, near))]
    others, prices = ([pair[place] for pairs in near for pair in pairs] for place in (0, 1))
    options = metis.Options(seed=SEED, ufactor=uneven)
    return list(metis.part_graph(count, xadj=starts, adjncy=others, eweights=prices, vweights=weights,
                                 options=options)[1])


def by_kernighan_lin(weights, costs, count):
    """By halves, and halves of these: a first half of the right weight, and then exchanges of nodes."""
    near, parts = neighbours(weights, costs), [0] * len(weights)
    waiting = [(list(range(len(weights))), 0, count)]
    while waiting:
        nodes, first, some = waiting.pop()
        if some > 1:
            left, right = bisected(weights, near, nodes, some // 2 / some)
            waiting += [(left, first, some // 2), (right, first + some // 2, some - some // 2)]
        else:
            for node in nodes:
                parts[node] = first
    return parts


def bisected(weights, near, nodes, share):
    """Two halves of some nodes, of which the first has about a share of the weight."""
    graph_of = module("networkx")
    inside = set(nodes)
    graph = graph_of.Graph()
    graph.add_nodes_from(nodes)
    graph.add_weighted_edges_from((node, other, cost) for node in nodes
                                  for other, cost in near[node] if other in inside and node < other)
    order = list(graph_of.bfs_tree(graph, nodes[0])) if nodes else []
    order += [node for node in nodes if node not in set(order)]
    aim, held, count = share * sum(weights[node] for node in nodes), 0, 0
    while count < len(order) - 1 and held + weights[order[count]] / 2 < aim:
        held, count = held + weights[order[count]], count + 1
    count = max(count, 1)
    begin = (set(order[:count]), set(order[count:]))
    if not begin[1]:
        return sorted(begin[0]), []
    halves = graph_of.algorithms.community.kernighan_lin_bisection(graph, begin, weight="weight", seed=SEED)
    # Which of the two is the first half is not said: the one that has more of what it began with.
    halves = sorted(halves, key=lambda half: -len(half & begin[0]))
    return sorted(halves[0]), sorted(halves[1])
