"""The table of flows: the program's counts and delays over all sources of a flow, and a queue beside its theory."""

import csv
import statistics
import unittest

from networks import measured
from networks.tests import tool
from networks.tests.test_planned import ENDS, POISSON, TWO

# Student's t for twenty values, both sides together 5 per cent.
T_19 = 2.093
PAIRS = 20
# A packet of 100 octets takes 800 us at 1 Mbit/s.
SERVICE, DELAY = 800_000, 10_000


def queues(load, until, size=72, scale=1):
    """A SPEC of single-server queues, each with a Poisson flow of its own, and packets of one size."""
    lines = ['stop = "6 s"', "seed = 2", f"scale = {scale}", "[defaults]", 'node = {kind = "host"}',
             f"host_link = {{rate = {10**6 * scale}, delay = {DELAY}, queue = 10000}}"]
    # One network has to be in one piece: the queues hang on a router by links that carry nothing else.
    lines += ["[[node]]", 'name = "r"', 'kind = "router"']
    for number in range(PAIRS):
        lines += [f'[[node]]\nname = "a{number}"', f'[[node]]\nname = "b{number}"']
        lines += [f'[[link]]\na = "a{number}"\nb = "b{number}"', f'[[link]]\na = "a{number}"\nb = "r"']
    interval = round(SERVICE / load)
    for number in range(PAIRS):
        lines += ["[[flow]]", 'kind = "poisson"', f'from = "a{number}"\nto = "b{number}"', f"size = {size}",
                  f"interval = {interval}", f'until = "{until}"']
    return "\n".join(lines) + "\n"


class Parts(unittest.TestCase):
    def test_percentiles_are_by_nearest_rank(self):
        spread = [(10, 1), (20, 2), (30, 1)]
        self.assertEqual([measured.percentile(spread, share) for share in (1, 25, 26, 75, 76, 100)],
                         [10, 10, 20, 20, 30, 30])
        self.assertEqual(measured.percentile([], 50), 0)

    def test_a_mean_weighs_each_source_by_its_packets(self):
        rows = [{"mean": "10", "count": "3"}, {"mean": "20", "count": "1"}, {"mean": "0", "count": "0"}]
        self.assertEqual(measured.mean(rows, "mean", "count"), 12)
        self.assertEqual(measured.mean(rows[2:], "mean", "count"), 0)


@tool.needs_nullsim
class Flows(tool.Folder):
    def rows(self, text, spec=None):
        """The table of a SPEC's text, of the topology that is made of it."""
        path = self.file("x.spec.toml", text)
        topology = self.file("x.toml", tool.made(spec or text))
        status, said, beside = tool.call("flows", topology, path, "--csv", "--nullsim", tool.NULLSIM)
        self.assertEqual(status, 0, beside)
        return list(csv.DictReader(said.splitlines()))

    def test_sources_of_one_flow_are_one_row(self):
        text = TWO + POISSON.replace("1000", "4000") + 'name = "web"\n' + ENDS + 'kind = "onoff"\n' \
            'interval = "1 ms"\nsize = 100\non = "3 ms"\noff = "7 ms"\nperiods = "fixed"\ncount = 30\n' + ENDS + \
            'kind = "echo"\ncount = 4\n'
        web, burst, echo = self.rows(text)
        path = self.accepted(tool.made(text))
        own = list(csv.DictReader(self.nullsim("report", path, "csv", "delays").decode().splitlines()))
        self.assertEqual((web["flow"], web["kind"], web["sources"]), ("web", "poisson", "4"))
        self.assertEqual((burst["flow"], burst["sources"], burst["sent"], burst["octets"]), ("1", "10", "30", "3840"))
        self.assertEqual((echo["kind"], echo["sent"], echo["answered"]), ("echo", "4", "4"))
        for key in ("sent", "delivered", "octets", "dropped"):
            self.assertEqual(int(web[key]), sum(int(row[key]) for row in own[:4]))
        # A flow of one source has the numbers of that source.
        for key in (*measured.DELAYS, "mean_round_trip"):
            self.assertEqual(echo[key], own[-1][key])
        # Flows that are called alike have a row each.
        both = self.rows(TWO + POISSON + 'name = "1"\n' + POISSON.replace("seed = 3", "seed = 4"))
        self.assertEqual([row["flow"] for row in both], ["1", "1"])
        status, said, _ = tool.call("flows", path, self.file("y.spec.toml", text), "--nullsim", tool.NULLSIM)
        self.assertEqual((status, said.splitlines()[0].split()[:4]), (0, ["flow", "kind", "from", "to"]))

    def test_another_topology_is_refused(self):
        topology = self.file("x.toml", tool.made(TWO + POISSON))
        for text, said in ((POISSON.replace("seed = 3", "seed = 4"), "of the SPEC it is raw of a with"),
                           (POISSON + POISSON, "has 2: make it again")):
            status, _, beside = tool.call("flows", topology, self.file("x.spec.toml", TWO + text), "--nullsim",
                                          tool.NULLSIM)
            self.assertEqual(status, 3)
            self.assertIn(said, beside)
        bad = self.file("bad.toml", "format = 1\n")
        status, _, beside = tool.call("flows", bad, self.file("x.spec.toml", TWO + POISSON), "--nullsim", tool.NULLSIM)
        self.assertIn("nullsim ends with nullsim: topology 2: `nullsim check` says more", beside)
        right = self.file("x.spec.toml", TWO + POISSON)
        status, _, beside = tool.call("flows", topology, right, "--nullsim", "/nosuch")
        self.assertEqual((status, beside), (4, 'network: "/nosuch" does not run: No such file or directory\n'))

    def test_a_queue_waits_as_theory_says(self):
        rows = self.rows(queues(0.5, "5 s"))
        waits = [int(row["mean_delay"]) - DELAY - SERVICE for row in rows]
        mean, half = statistics.mean(waits), T_19 * statistics.stdev(waits) / PAIRS**0.5
        # M/D/1 (Pollaczek and Khinchine): load / (2 (1 - load)) of a service, here half of one.
        self.assertLess(abs(mean - SERVICE / 2), half)
        self.assertLess(half, SERVICE / 20)

    def test_a_scale_leaves_the_table_as_it_is(self):
        plain = self.rows(queues(0.8, "300 ms", 972).replace(f"rate = {10**6}", f"rate = {10**7}"))
        scaled = self.rows(queues(0.8, "300 ms", 972, 10))
        self.assertEqual(plain, scaled)
        self.assertEqual(len(plain), PAIRS)
