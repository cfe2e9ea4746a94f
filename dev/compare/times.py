"""The comparison of speed: ns-3, nullsim and a bare loop over the same networks, in turn; and what else the host did
meanwhile, from /proc/stat."""

import os
import re

from dev.compare import plain, programs
from dev.lib import here, process, topologies

# Each network, the packets of a source for ns-3, and how many times as many for the others: about two seconds a run.
NETWORKS = (("line-1000", "a line of 64 routers", 7_940, 16), ("grid-1000", "a grid of 16 by 16 routers", 708, 12),
            ("ring-1000", "a ring of 64 routers", 245, 16),
            ("star-1000", "32 hosts around one whose link is too slow", 10_400, 12))
RUNS = 3
# Trace files of a whole run would fill a disk: with them there is this part of ns-3's packets, for all three.
TRACED_PART = 2
HEAD = ("Network", "Trace files", "ns-3", "nullsim", "bare loop", "nullsim to ns-3", "loop to nullsim", "Memory: ns-3",
        "nullsim", "loop", "Shortest run")
# The share of steal, or of other work, above which a time says too little.
MOST_OTHER = 0.10


def seconds():
    """The processor seconds of all processors since the host started: idle, steal, and all."""
    ticks = [int(word) for word in here.read("/proc/stat").split()[1:9]]
    a_second = os.sysconf("SC_CLK_TCK")
    return (ticks[3] + ticks[4]) / a_second, ticks[7] / a_second, sum(ticks) / a_second


def host_model():
    """The processors and the memory, in words."""
    names = re.findall(r"^model name.*?: *(.*?) *$", here.read("/proc/cpuinfo"), re.M) or ["of an unknown model"]
    gibibytes = os.sysconf("SC_PHYS_PAGES") * os.sysconf("SC_PAGE_SIZE") / 2 ** 30
    return f"{os.cpu_count()} processors, {names[0]}, {gibibytes:.0f} GiB of memory"


class Watch:
    """The shares of steal and of other work, from its making on."""

    def __init__(self):
        self.idle, self.steal, self.all = seconds()
        self.own = sum(os.times()[:4])

    def shares(self):
        idle, steal, every = (now - then for now, then in zip(seconds(), (self.idle, self.steal, self.all)))
        others = every - idle - steal - (sum(os.times()[:4]) - self.own)
        return (steal / every, max(0.0, others / every)) if every else (0.0, 0.0)

    def is_busy(self):
        return any(share > MOST_OTHER for share in self.shares())

    def words(self):
        steal, others = self.shares()
        return f"{steal:.0%} of its processor time was steal and {others:.0%} other work"


class Network:
    """A network for a number of packets, as a topology and as plain lines, and its packet-hops."""

    def __init__(self, kind, packets, folder):
        self.text = topologies.generate(kind, os.path.join(folder, f"{kind}-{packets}.toml"), packets)
        self.lines = os.path.join(folder, f"{kind}-{packets}.plain")
        plain.write_plain(plain.read(self.text), self.lines)
        self.hops = int(programs.call([programs.LOOP, self.lines]).split()[1])


def timed(words):
    """The processor seconds and the peak of memory in MiB of a run; the word DIR is a new folder for trace files."""
    with process.folder("compare") as folder:
        used = process.timed(*(folder if word == "DIR" else word for word in words))
    return used.user + used.system, used.memory


def best(works):
    """Runs each of several works in turn, some times over, and gives the best of each."""
    found = [[timed(words) for words in works] for _ in range(RUNS)]
    return [(min(one[0] for one in column), max(one[1] for one in column)) for column in zip(*found)]


def row(name, files, hops, found):
    """A line of the table: millions of packet-hops a second of processor time, and memory."""
    rates = [count / seconds / 1e6 for count, (seconds, _) in zip(hops, found)]
    cells = [name, files, *(f"{rate:.2f}" for rate in rates), f"{rates[1] / rates[0]:.1f}",
             f"{rates[2] / rates[1]:.1f}", *(f"{memory:.0f} MiB" for _, memory in found), f"{min(found)[0]:.1f} s"]
    return f"| {' | '.join(cells)} |"


def rows(kind, name, packets, factor, folder):
    slow, fast = Network(kind, packets, folder), Network(kind, packets * factor, folder)
    works = [[programs.NS3, slow.lines], [here.NULLSIM, "one", fast.text], [programs.LOOP, fast.lines]]
    yield row(name, "none", (slow.hops, fast.hops, fast.hops), best(works))
    traced = Network(kind, packets // TRACED_PART, folder)
    ns3, loop = ([program, traced.lines, "--traces", "DIR"] for program in (programs.NS3, programs.LOOP))
    yield row(name, "all", [traced.hops] * 3, best([ns3, [here.NULLSIM, "run", traced.text, "DIR", "1", "1"], loop]))


def table():
    """The table, line by line, each as soon as it is known."""
    yield f"| {' | '.join(HEAD)} |"
    yield "|" + "---|" * len(HEAD)
    with process.folder("compare") as folder:
        for network in NETWORKS:
            yield from rows(*network, folder)
