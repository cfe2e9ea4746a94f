"""The words of tools/launch, and how its faults are said."""

import argparse
import os
import sys

from networks import errors, program, toml, topology

from launching import hosts, places
from launching.run import Run
from launching.view import View

# Exit statuses: done; the words; the input is refused, or a node failed; a program is missing; ended by Ctrl-C.
DONE, USAGE, FAILED, LACKING, ENDED = 0, 2, 3, 4, 130
FIRST_PORT, LAST_PORT = 7_000, 65_535


def parser(doc, form):
    """What the words mean."""
    reader = argparse.ArgumentParser(prog="launch", description=doc, formatter_class=form, allow_abbrev=False)
    reader.add_argument("topology", metavar="TOPO")
    reader.add_argument("folder", metavar="DIR", help="for what the nodes leave; it is made")
    reader.add_argument("--hosts", metavar="HOSTS", help="a host file with lines `HOST`, `HOST slots=4` or `HOST "
                                                         "address=A.B.C.D`; or hosts with commas between")
    reader.add_argument("--by", choices=("here", "ssh", "mpi", "slurm"),
                        help="how nodes are started, where it finds another way")
    reader.add_argument("--port", type=int, default=FIRST_PORT, help=f"the first port of each host ({FIRST_PORT})")
    reader.add_argument("--replicas", type=int, choices=(1, 2), default=1, help="of each partition (1)")
    reader.add_argument("--nullsim", metavar="PROGRAM", help="the program, here and on all hosts")
    reader.add_argument("--ssh", metavar="COMMAND", default="ssh", help="ssh with its options: \"ssh -p 2222\"")
    reader.add_argument("--plain", action="store_true", help="no live view, but a line now and then")
    return reader


def made(words):
    """The run that the words ask for."""
    if not 1 <= words.port <= LAST_PORT - 2 * 64:
        raise hosts.Refused(f"--port is 1 to {LAST_PORT - 2 * 64}: a host may need as many ports as there are nodes")
    nullsim = os.path.abspath(program.found(words.nullsim))
    text = toml.load(words.topology)
    network = topology.read(text)
    if not network.nodes:
        raise hosts.Refused(f"{words.topology} has no node")
    place = places.found(words.by, words.hosts, words.ssh)
    return Run(network, text.text.encode(), words.folder, place, words.port, words.replicas, nullsim)


def perform(words):
    """Runs all, and prints what was certified."""
    run = made(words)
    if len(run.nodes) == 1:
        print("launch: the topology has one partition: `network partition TOPO N` cuts it", file=sys.stderr)
    run.perform(View(sys.stderr.isatty() and not words.plain))
    print(run.certify(len(os.sched_getaffinity(0))), end="")


def main(doc, form):
    """Runs the command: its exit status."""
    try:
        perform(parser(doc, form).parse_args())
    except (hosts.Refused, errors.Refused, OSError) as why:
        print(f"launch: {why}", file=sys.stderr)
        return FAILED
    except errors.Lacking as why:
        print(f"launch: {why}", file=sys.stderr)
        return LACKING
    except KeyboardInterrupt:
        print("launch: ended; so have all nodes", file=sys.stderr)
        return ENDED
    return DONE
