"""The package nullsim beside the program's own output; faults with number, place and cure; frames and arrays."""

import csv
import os
import subprocess
import sys
import unittest

import nullsim
from networks import sweeps
from networks.tests import tool
from nullsim import runs

SPEC = """stop = "400 ms"
seed = 1
node = [{name = "gw", hosts = 1}, {name = "isp", hosts = 1}]
link = [{a = "gw", b = "isp", rate = "2 Mbit/s", delay = "10 ms", queue = 5}]
flow = [
  {name = "web", kind = "poisson", from = "gw-h1", to = "isp-h1", rate = "3 Mbit/s"},
  {kind = "echo", from = "isp-h1", to = "gw-h1", interval = "50 ms"},
]
"""


def called():
    """The same network by calls."""
    network = nullsim.Network(stop="400 ms", seed=1, asked=tool.NULLSIM)
    network.add_router("gw", hosts=1).add_router("isp", hosts=1)
    network.add_link("gw", "isp", rate="2 Mbit/s", delay="10 ms", queue=5)
    network.add_flow("poisson", from_="gw-h1", to="isp-h1", rate="3 Mbit/s", name="web")
    return network.add_flow("echo", from_="isp-h1", to="gw-h1", interval="50 ms")


class Making(tool.Folder):
    def fault(self, call, *words, kind=nullsim.Refused):
        """The fault that a call raises."""
        with self.assertRaises(kind) as caught:
            call(*words)
        return caught.exception

    def test_a_spec_and_calls_make_the_text_of_network_make(self):
        path = self.file("x.spec.toml", SPEC)
        wanted = tool.call("make", path)[1]
        self.assertEqual(nullsim.Network.from_spec(path).topology(), wanted)
        self.assertEqual(called().topology(), wanted)
        self.assertEqual(nullsim.Network.from_text(SPEC).topology(), wanted)
        saved = called().save(os.path.join(self.folder, "saved.toml"))
        self.assertEqual(nullsim.Topology.read(saved).topology(), wanted)

    def test_an_imported_file_is_that_of_network_import(self):
        graph = os.path.join(tool.DATA, "zoo.graphml")
        spec = tool.call("import", graph)[1]
        self.assertEqual(nullsim.Network.imported(graph).topology(), nullsim.Network.from_text(spec, "x").topology())
        self.assertIn("cannot be read", self.fault(nullsim.Network.imported, "/nosuch").cure)

    def test_wrong_keys_have_their_place(self):
        why = self.fault(nullsim.Network.from_text(SPEC.replace("queue = 5", "queu = 5"), "my.spec.toml").topology)
        self.assertEqual((why.number, why.place), (3, 'my.spec.toml:4: link 0 ("gw" to "isp")'))
        self.assertIn('key "queu" is unknown; did you mean "queue"?', why.cure)
        network = called()
        network.add_flow("cbr", from_="gw-h1", to="nobody")
        why = self.fault(network.topology)
        self.assertRegex(why.place, r"test_python\.py:\d+: flow 2$")
        self.assertIn("no node is named", why.cure)
        for key, part in (("flow.web.rat", "flow.web.rat: flow 0"), ("flow.wb.rate", '"wb" among the 2 there'),
                          ("link.7.rate", '"7" among the 1 there'), ("stop.x", "leads to no key"),
                          ("nosuch", 'key "nosuch" is unknown')):
            why = self.fault(lambda: called().with_values({key: 1}).topology())
            self.assertIn(part, str(why))

    def test_values_are_those_of_keys(self):
        plain = called()
        for values, old, new in (({"flow.web.rate": "1 Mbit/s"}, "3 Mbit/s", "1 Mbit/s"),
                                 ({"link.0.queue": 9, "seed": 4}, "queue = 5", "queue = 9"),
                                 ({"stop": "200 ms"}, "400 ms", "200 ms")):
            text = SPEC.replace(old, new).replace("seed = 1", f"seed = {values.get('seed', 1)}")
            self.assertEqual(plain.with_values(values).topology(), nullsim.Network.from_text(text).topology())
        wanted = nullsim.Network.from_text(SPEC + "[defaults]\nhost_link = {queue = 7}\n").topology()
        self.assertEqual(plain.with_values({"defaults.host_link.queue": 7}).topology(), wanted)

    def test_words_of_a_sweep_that_are_refused(self):
        spec = self.file("x.spec.toml", SPEC)
        for word, further, part in (("queue", (), "is no KEY=VALUE"), ("=5", (), "is no KEY=VALUE"),
                                    ("SEEDS=9..1", (), "a range rises"), ("SEEDS=0..999999", (), "at most 100,000"),
                                    ("stop=1 s", ("--", "tables"), "there are flows, report"),
                                    ("flow.web.rat=1,2", (), "flow.web.rat: flow 0: key \"rat\" is unknown"),
                                    ("link.0.queue=many", (), 'link 0 ("gw" to "isp"): key "queue" has to be')):
            status, said, beside = tool.call("sweep", spec, word, "--nullsim", "/nosuch", *further)
            self.assertEqual((status, said, beside.count("\n")), (3, "", 1), beside)
            self.assertIn(part, beside)
        self.assertEqual(sweeps.values_of("a.b=1,2.5,true,5 ms,\"x\""), ("a.b", [1, 2.5, True, "5 ms", "x"]))
        self.assertEqual(sweeps.values_of("SEEDS=2..4"), ("SEEDS", [2, 3, 4]))

    def test_a_missing_program_is_said(self):
        why = self.fault(nullsim.Topology("", "/nosuch").check, kind=nullsim.Lacking)
        self.assertEqual((why.number, why.place), (4, "/nosuch"))


@tool.needs_nullsim
class Answers(tool.Folder):
    def setUp(self):
        super().setUp()
        self.network = called()
        self.path = self.network.save(os.path.join(self.folder, "x.toml"))

    def rows(self, *words):
        """The table that the program prints."""
        return list(csv.DictReader(self.nullsim(*words).decode().splitlines()))

    def same(self, records, rows):
        """Records have the values of rows of texts, in their order."""
        for record, row in zip(records, rows, strict=True):
            for name in row:
                self.assertEqual(str(getattr(record, name)), row[name], name)

    def test_tables_are_the_program_s(self):
        report = self.network.report()
        self.same(report.sources, self.rows("report", self.path, "csv", "delays"))
        long = self.nullsim("report", self.path, "csv").decode().splitlines()
        self.assertIn(f"interface,gw-isp,dropped,{report.interface('gw-isp').dropped}", long)
        self.assertIn(f"node,isp-h1,udp,{report.sources[0].delivered}", long)
        self.assertEqual(len(report.counters) + 7 * len(report.interfaces),
                         sum(line.startswith(("node,", "interface,")) for line in long))
        self.same(self.network.delays(), self.rows("report", self.path, "delays"))
        self.same(self.network.series("100 ms"), self.rows("series", self.path, "100000000"))
        self.same(self.network.series_of_sources(10**8), self.rows("series", self.path, "100000000", "flows"))
        self.assertGreater(report.interface("gw-isp").dropped, 0)

    def test_flows_are_those_of_network_flows(self):
        spec = self.file("x.spec.toml", SPEC)
        said = tool.call("flows", self.path, spec, "--csv", "--nullsim", tool.NULLSIM)[1]
        rows = [{("from_" if key == "from" else key): value for key, value in row.items()}
                for row in csv.DictReader(said.splitlines())]
        self.same(self.network.flows(), rows)

    def test_packets_and_traces(self):
        for packet, row in zip(self.network.packets(0), self.rows("packets", self.path, "0"), strict=True):
            self.assertEqual((str(packet.packet), packet.outcome), (row["packet"], row["outcome"]))
            way = " ".join(f"{it.interface}{'>' if it.is_out else '<'}{it.nanoseconds}" for it in packet.way)
            self.assertEqual(way, row["way"])
        trace = self.network.trace("gw-isp")
        octets = self.nullsim("one", self.path, "gw-isp")
        self.assertEqual(24 + sum(16 + len(it.octets) for it in trace), len(octets))
        self.assertEqual(b"".join(it.octets for it in trace)[:20], octets[40:60])

    def test_a_check_and_a_run(self):
        found = self.network.check()
        self.assertEqual((found.counts["nodes"], found.counts["hosts"], found.counts["channels"]), (4, 2, 0))
        folder = os.path.join(self.folder, "out")
        run = self.network.run(folder, partitions=1)
        self.assertEqual((run.partitions, run.packets["gw-isp"]), (1, len(self.network.trace("gw-isp"))))
        self.assertEqual(run.trace("gw-isp"), self.network.trace("gw-isp"))
        self.nullsim("verify", self.path, folder)

    def test_partitions_are_cut_where_they_pay(self):
        text, count = runs.cut(called().topology(), None)
        self.assertIn(count, range(1, runs.processors() + 1))
        self.assertEqual(runs.cut(text, None), (text, count))
        with self.assertRaises(nullsim.Refused) as caught:
            runs.cut(text, 65)
        self.assertIn("N has to be 1 to 64", caught.exception.cure)

    def test_faults_of_the_program(self):
        with self.assertRaises(nullsim.Failed) as caught:
            self.network.trace("nosuch")
        self.assertEqual(caught.exception.number, 2)
        self.assertIn("shows the names of all interfaces", caught.exception.cure)
        bad = nullsim.Topology(self.network.topology().replace("mtu = 1500", "mtu = 5"), tool.NULLSIM)
        with self.assertRaises(nullsim.Refused) as caught:
            bad.report()
        self.assertEqual(caught.exception.number, 5)
        self.assertRegex(caught.exception.place, r"^line \d+")
        with self.assertRaises(nullsim.Refused):
            self.network.series("1 fortnight")

    def test_progress_is_told(self):
        told = []
        self.network.report(told.append)
        self.assertTrue(all(0 <= it.percent <= 100 for it in told))

    def test_a_sweep_has_means_and_intervals(self):
        rows = nullsim.sweep(self.network, {"link.0.queue": [2, 8]}, range(1, 4), measures=["dropped"])
        self.assertEqual([(row.values, row.name, row.runs) for row in rows if row.name.startswith("web")],
                         [({"link.0.queue": queue}, "web gw-h1 to isp-h1", 3) for queue in (2, 8)])
        single = [self.network.with_values({"link.0.queue": 2, "seed": seed}).flows()[0].dropped
                  for seed in range(1, 4)]
        found = nullsim.interval(single)
        self.assertEqual((rows[0].mean, rows[0].low, rows[0].high), (found.mean, found.low, found.high))
        again = nullsim.sweep(lambda values, seed: called(), {"x": [1]}, table=lambda network: {("k", "n", "m"): 5.0})
        self.assertEqual([(row.kind, row.mean, row.low) for row in again], [("k", 5.0, None)])
        spec = self.file("x.spec.toml", SPEC)
        status, said, _ = tool.call("sweep", spec, "link.0.queue=2,8", "SEEDS=1..3", "--nullsim", tool.NULLSIM, "--",
                                    "flows", "dropped")
        self.assertEqual((status, len(said.splitlines())), (0, 5))
        self.assertEqual(said.splitlines()[0], "link.0.queue,kind,name,measure,runs,mean,low,high")
        self.assertEqual(float(said.splitlines()[1].split(",")[5]), float(f"{found.mean:.9g}"))

    @tool.needs_module("pandas")
    def test_frames_and_arrays(self):
        series = self.network.series("100 ms")
        frame, arrays = series.frame(), series.arrays()
        self.assertEqual(list(frame["octets_out"]), [row.octets_out for row in series])
        self.assertEqual(int(arrays["octets_out"].sum()), sum(row.octets_out for row in series))
        self.assertEqual(str(frame["octets_out"].dtype), "int64")
        self.assertEqual(len(self.network.packets(1).frame()), 8)


@unittest.skipUnless(os.access(os.path.join(tool.ROOT, "bin", "nullsim"), os.X_OK), "bin/nullsim is not built")
class Installed(tool.Folder):
    def make(self, target):
        words = ["make", "-s", "-C", tool.ROOT, "-o", "bin/nullsim", target, f"PREFIX={self.folder}/usr"]
        return subprocess.run(words, capture_output=True, text=True, check=True).stdout

    def test_an_installed_package_runs_outside_the_tree(self):
        said = self.make("install")
        path = said.split("PYTHONPATH=")[1].strip()
        code = "import nullsim\n" + "print(nullsim.Network.from_spec('x.spec.toml').report().sources[0].sent)"
        self.file("x.spec.toml", SPEC)
        kept = {key: value for key, value in os.environ.items() if key != "NULLSIM"}
        kept.update({"PYTHONPATH": path, "PATH": "/usr/bin:/bin"})
        for words in (["-m", "nullsim"], ["-c", code]):
            ended = subprocess.run([sys.executable, *words], capture_output=True, text=True, check=False, env=kept,
                                   cwd=self.folder)
            self.assertEqual((ended.returncode, ended.stderr), (0, ""))
        self.assertEqual(ended.stdout, f"{called().report().sources[0].sent}\n")
        launch = subprocess.run([f"{self.folder}/usr/bin/nullsim-launch", "--help"], capture_output=True, check=False)
        self.assertEqual(launch.returncode, 0)
        self.make("uninstall")
        self.assertEqual([names for _, _, names in os.walk(os.path.join(self.folder, "usr")) if names], [])


class Parts(unittest.TestCase):
    def test_intervals_are_those_of_tables(self):
        for freedom, confidence, bound in ((1, 0.95, 12.706), (2, 0.95, 4.303), (4, 0.95, 2.776), (19, 0.95, 2.093),
                                           (7, 0.999, 5.408), (120, 0.95, 1.980)):
            self.assertAlmostEqual(nullsim.intervals.student(freedom, confidence), bound, places=3)
        found = nullsim.interval([1, 2, 3])
        self.assertAlmostEqual(found.high - found.mean, 4.303 / 3**0.5, places=3)
        self.assertTrue(found.has(2) and not found.has(9) and not nullsim.interval([1]).has(1))

    def test_without_packages_records_are_there_and_frames_say_what_to_do(self):
        code = ("import sys; sys.modules['pandas'] = sys.modules['numpy'] = None\nimport nullsim\n"
                "rows = nullsim.Rows(nullsim.Counter, [nullsim.Counter('a', 'udp', 1)])\nprint(rows.columns())\n"
                "try:\n    rows.frame()\nexcept nullsim.Lacking as why:\n    print(why)\n")
        ended = subprocess.run([sys.executable, "-c", code], capture_output=True, text=True, check=False,
                               env={**os.environ, "PYTHONPATH": os.path.join(tool.ROOT, "tools")})
        self.assertIn("{'node': ['a'], 'counter': ['udp'], 'packets': [1]}", ended.stdout, ended.stderr)
        self.assertIn("apt-get install python3-pandas", ended.stdout)

    def test_where_the_program_is(self):
        code = [sys.executable, "-m", "nullsim"]
        kept = {**os.environ, "PYTHONPATH": os.path.join(tool.ROOT, "tools"), "NULLSIM": "/nosuch"}
        ended = subprocess.run(code, capture_output=True, text=True, check=False, env=kept)
        self.assertEqual((ended.returncode, ended.stderr.count("\n")), (4, 1))
        if os.access(tool.NULLSIM, os.X_OK):
            ended = subprocess.run(code, capture_output=True, text=True, check=False,
                                   env={**kept, "NULLSIM": tool.NULLSIM})
            self.assertEqual(ended.stdout.split()[:2], ["program", tool.NULLSIM])
