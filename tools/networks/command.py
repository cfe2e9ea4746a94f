"""The words of tools/network, and how its faults are said."""

import argparse
import importlib
import os
import sys

from networks import editing, errors, helps, making, paths, routes, spec, toml, topology, writing

# Exit statuses: done, words that are no command, an input that is refused, a package that is missing.
DONE, USAGE, REFUSED, LACKING = 0, 2, 3, 4


def say(line):
    """A line for the person, beside the text on standard output."""
    print(line, file=sys.stderr)


def give(text, lines=()):
    """A text that was made, and what is said of it."""
    sys.stdout.write(text)
    for line in lines:
        say(line)


# A module of the tool that only some words need.
module = importlib.import_module


def do_make(words):
    """A topology from a SPEC."""
    found, early = spec.read(toml.load(words.file)), []

    def say_early(line):
        early.append(line)
        say(line)

    made = making.make(found, words.file, say_early)
    give(writing.text(made, found.title), (line for line in made.chosen if line not in early))


def do_routes(words):
    """The same text with other routes."""
    text = toml.load(words.file)
    network = topology.read(text)
    routes.check_joined(network, words.file, lambda number: text.place("node", number))
    old = network.routes
    network.routes = routes.computed(network, words.weight, words.spread, words.file, words.only_flows)
    routes.check_flows(network, lambda number: f"{text.place('source', number)}: source {number}")
    said = f"routes      {len(network.routes):,} in place of {len(old):,}, by least {words.weight}"
    give(editing.with_routes(text.text, network, old), [said])


def do_flows(words):
    """What became of each flow."""
    measured, found = module("networks.measured"), spec.read(toml.load(words.spec))
    network = making.make(found, words.spec).network
    rows = measured.of_file(network, found.scale, words.file, words.nullsim)
    give(measured.csv_text(rows) if words.csv else measured.people_text(rows))


PROGRAM = ("--nullsim", {"metavar": "PROGRAM", "help": "instead of bin/nullsim or nullsim"})
FILE = ("file", {"metavar": "FILE", "help": "a file, or - for standard input"})
# For each word what does it, its help, and its words beside FILE: options, and what stands behind FILE.
WORDS = {
    "make": (do_make, "SPEC.toml > x.toml: a whole topology from a short description", FILE),
    "import": (
        lambda words: give(*module("networks.importing").spec_text(words)),
        "FILE > SPEC.toml: a SPEC from GraphML, GML, an edge list, Rocketfuel weights or BRITE",
        ("--format", {"choices": ("graphml", "gml", "edges", "rocketfuel", "brite"),
                      "help": "where the file's name and text do not tell"}),
        ("--latencies", {"metavar": "FILE", "help": "Rocketfuel's latencies (milliseconds) beside its weights"}),
        ("--largest", {"action": "store_true", "help": "of a network in pieces take the largest"}), FILE),
    "routes": (
        do_routes, "x.toml > y.toml: the routes anew, by shortest paths",
        ("--weight", {"choices": [weight for weight in paths.WEIGHTS if weight != "cost"], "default": "delay",
                      "help": "what is least (delay)"}),
        ("--spread", {"action": "store_true", "help": "of equal paths another one for each destination"}),
        ("--only-flows", {"action": "store_true", "help": "only to nodes at the ends of flows"}), FILE),
    "partition": (
        lambda words: give(*module("networks.partition").chosen(toml.load(words.file), words.count, words.by)),
        "x.toml N > y.toml: N partitions",
        ("--by", {"choices": ("metis", "kernighan-lin"), "help": "what cuts (METIS where it is installed)"}), FILE,
        ("count", {"metavar": "N", "type": int, "help": "how many partitions: 1 to 64"})),
    "show": (lambda words: give(module("networks.page").html_text(toml.load(words.file))),
             "x.toml > x.html: a page with the drawn network, its links and flows", FILE),
    "flows": (
        do_flows, "x.toml SPEC.toml: what became of each flow of a SPEC, over all its sources",
        ("--csv", {"action": "store_true", "help": "comma-separated values"}), PROGRAM, FILE,
        ("spec", {"metavar": "SPEC", "help": "the SPEC that the topology was made of"})),
    "sweep": (
        lambda words: give(module("networks.sweeps").csv_text(words)),
        "SPEC.toml KEY=a,b,c SEEDS=1..20 -- flows|report MEASURE..: means of variants with intervals of 95 per cent",
        PROGRAM, FILE,
        ("values", {"metavar": "KEY=a,b,c", "nargs": "*", "help": "values of a key, or SEEDS=1..20"})),
}
USAGES = {"sweep": "network sweep SPEC KEY=a,b,c .. SEEDS=1..20 -- flows|report MEASURE.."}


def parser():
    """What the words mean."""
    top = argparse.ArgumentParser(
        prog="network", description="Makes topology texts for nullsim. `network WORD --help` has all of a word, and "
                                    "that of `make` the keys of a SPEC. What was chosen is written to standard error.",
        allow_abbrev=False)
    some = top.add_subparsers(dest="word", required=True, metavar="WORD")
    for word, (do, said, *options) in WORDS.items():
        one = some.add_parser(word, help=said, usage=USAGES.get(word), epilog=helps.WORDS[word].strip("\n"),
                              formatter_class=argparse.RawDescriptionHelpFormatter)
        one.set_defaults(do=do)
        for name, how in options:
            one.add_argument(name, **how)
    return top


def main(arguments):
    """Runs a command: its exit status."""
    # Behind `--` stands what a sweep measures.
    end = arguments.index("--") if arguments[:1] == ["sweep"] and "--" in arguments else len(arguments)
    words = parser().parse_args(arguments[:end])
    words.further = arguments[end + 1:]
    try:
        words.do(words)
        sys.stdout.flush()
    except (errors.Refused, errors.Lacking) as why:
        say(f"network: {why}")
        return REFUSED if isinstance(why, errors.Refused) else LACKING
    except BrokenPipeError:
        # Who read the text has had enough of it; what is left of it goes nowhere.
        os.dup2(os.open(os.devnull, os.O_WRONLY), sys.stdout.fileno())
    return DONE
