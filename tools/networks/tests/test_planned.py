"""Flows whose packets are drawn, listed or recorded: what is written of them, what fits, and that the program takes
it."""

import hashlib
import tomllib

from networks import errors, limits, routes, traffic
from networks.tests import tool
from networks.tests.test_recorded import A, B, datagram, pcap

TWO = '''[[node]]
name = "a"
kind = "host"
[[node]]
name = "b"
kind = "host"
[[link]]
a = "a"
b = "b"
rate = "10 Mbit/s"
delay = "1 ms"
queue = 1000
'''
ENDS = '[[flow]]\nfrom = "a"\nto = "b"\n'
POISSON = ENDS + 'kind = "poisson"\npacket_rate = 1000\nsize = 72\nseed = 3\n'
ALL = TWO + POISSON + ENDS + 'kind = "onoff"\nrate = "1 Mbit/s"\nsizes = [0, 472]\nweights = [1, 9]\n' \
    'on = "5 ms"\noff = "5 ms"\nseed = 4\n' + ENDS + 'at = [0, "1 us", "3 us"]\nsize = 1\n'
# The text of ALL with any Python from 3.11 on.
HASH = "52399a35e870279516e22d7d856e2c979bd7afc29b73f32d1ff80edf30aab786"


def sources(text):
    """The sources of what is made of a SPEC."""
    return tomllib.loads(tool.made(text)).get("source", [])


def packets(text):
    """All raw packets of what is made of a SPEC: (time, octets)."""
    return [(packet["at"], bytes.fromhex(packet["data"])) for source in sources(text) for packet in source["packet"]]


class Texts(tool.Folder):
    def test_the_same_seed_makes_the_same_text(self):
        self.assertEqual(hashlib.sha256(tool.made(ALL).encode()).hexdigest(), HASH)
        self.assertNotEqual(tool.made(ALL), tool.made(ALL.replace("seed = 3", "seed = 5")))
        self.assertTrue(tool.made(ALL).startswith("# Seeds of flows: "))

    def test_a_flow_keeps_its_packets_beside_others(self):
        first = [source["packet"] for source in sources(TWO + POISSON)]
        other = ENDS + 'kind = "poisson"\nrate = "1 Mbit/s"\nseed = 9\nsport = 5\n'
        self.assertEqual([source["packet"] for source in sources(TWO + POISSON + other)][:1], first)

    def test_pairs_of_one_flow_have_draws_of_their_own(self):
        text = TWO + POISSON.replace('from = "a"\nto = "b"', 'among = "*"\npairs = "all"')
        one, other = sources(text)
        self.assertNotEqual([packet["at"] for packet in one["packet"]], [packet["at"] for packet in other["packet"]])

    def test_identifications_count_on_for_each_node(self):
        octets = [packet for _, packet in packets(TWO + POISSON + POISSON)]
        self.assertEqual([int.from_bytes(packet[4:6], "big") for packet in octets], list(range(len(octets))))

    def test_the_least_and_the_greatest_sizes(self):
        for size in (0, 1472):
            found = packets(TWO + POISSON.replace("size = 72", f"size = {size}"))
            self.assertEqual({len(packet) for _, packet in found}, {size + 28})

    def test_no_packet_and_one_packet(self):
        self.assertEqual(sources(TWO + POISSON.replace("packet_rate = 1000", 'interval = "900 s"')), [])
        self.assertEqual(sources(TWO + ENDS + "at = []\n"), [])
        self.assertEqual([at for at, _ in packets(TWO + ENDS + "at = [999_999_999]\n")], [999_999_999])
        self.assertEqual(len(packets(TWO + POISSON + "count = 1\n")), 1)

    def test_a_full_source_and_one_more(self):
        for count, wanted in ((1024, [1024]), (1025, [1024, 1])):
            text = TWO + POISSON.replace("= 1000", "= 5000") + f"count = {count}\n"
            self.assertEqual([len(source["packet"]) for source in sources(text)], wanted)

    def test_bursts_are_cbr_sources_where_that_is_exact(self):
        flow = ENDS + 'kind = "onoff"\ninterval = "1 ms"\nsize = 5\non = "3 ms"\noff = "7 ms"\nperiods = "fixed"\n'
        found = sources(TWO + flow + 'until = "35 ms"\n')
        self.assertEqual([(one["kind"], one["start"], one["interval"], one["count"]) for one in found],
                         [("cbr", at * 10**7, 10**6, 3) for at in range(4)])
        # Bursts of one packet, and more bursts than a flow's share of the sources, are raw packets at the same times.
        single = packets(TWO + flow.replace('on = "3 ms"', 'on = "1 ms"') + "count = 5\n")
        self.assertEqual([at for at, _ in single], [number * 8 * 10**6 for number in range(5)])
        many = sources(TWO.replace("queue", "cost = 1\nqueue") + flow.replace('"1 ms"', '"10 us"').replace(
            '"3 ms"', '"20 us"').replace('"7 ms"', '"80 us"') + 'until = "200 ms"\n')
        self.assertEqual({source["kind"] for source in many}, {"raw"})
        self.assertEqual([packet["at"] for packet in many[0]["packet"]][:4], [0, 10_000, 100_000, 110_000])

    def test_a_scale_divides_sizes_and_rates_and_leaves_times(self):
        text = TWO + POISSON.replace("size = 72", "size = 972").replace("packet_rate = 1000", 'rate = "1 Mbit/s"')
        plain, scaled = packets(text), packets("scale = 10\n" + text)
        self.assertEqual([at for at, _ in plain], [at for at, _ in scaled])
        self.assertEqual({len(packet) for _, packet in scaled}, {100})
        self.assertEqual(tomllib.loads(tool.made("scale = 10\n" + text))["link"][0]["rate"], 10**6)
        cbr = "scale = 4\n" + TWO + ENDS + 'size = 972\nrate = "1 Mbit/s"\n[defaults]\nlink = {queue_octets = 4000}\n'
        made = tomllib.loads(tool.made(cbr))
        self.assertEqual((made["source"][0]["size"], made["source"][0]["interval"]), (222, 8 * 10**6))
        self.assertEqual(made["iface"][0]["queue_octets"], 1000)

    def test_raw_packets_are_followed_where_a_network_is_read(self):
        network = tool.network_of(tool.made(TWO + POISSON))
        found, count = traffic.expected(network), len(packets(TWO + POISSON))
        self.assertEqual((found.packets, found.octets, found.hops), ([count, 0], [100 * count, 0], [count, count]))
        self.assertEqual(routes.flow_ends(network), {0, 1})
        # What is no packet of IPv4 goes nowhere, and a time to live ends.
        text = tool.made(TWO + ENDS + "at = [1]\n").replace('data = "45', 'data = "65')
        self.assertEqual(traffic.expected(tool.network_of(text)).packets, [0, 0])
        with self.assertRaisesRegex(errors.Refused, 'source 0: key "via" is missing'):
            tool.network_of(tool.made(TWO + POISSON).replace('via = "a-b", packet', "packet"))


class Rooms(tool.Folder):
    def made_with(self, count, octets):
        """A text with so many drawn packets of so many octets."""
        flow = POISSON.replace("1000", str(count)).replace("size = 72", f"size = {octets - 28}")
        return tool.made(f'stop = "2 s"\n{TWO}{flow}count = {count}\n')

    def test_seventy_thousand_short_packets_or_eight_thousand_long_ones_fit(self):
        for count, octets in ((70_000, 100), (8_000, 1000)):
            text = self.made_with(count, octets)
            self.assertEqual(text.count("data = "), count)
            self.assertLessEqual(len(text), limits.TEXT_OCTETS)

    def test_what_does_not_fit_is_refused_with_what_would(self):
        flow = POISSON.replace("1000", "100_000").replace("size = 72", "size = 972")
        with self.assertRaisesRegex(
                errors.Refused, r"x.spec.toml:13: flow 0: it would have about 90,000 packets of 1,000 octets, and 8,2"
                r'.. fit .*what helps: a shorter time \(`until = "78 ms"`\), or several texts, each with another '
                r"`seed`, or sizes and rates divided alike \(`scale = 20` at the top\)"):
            tool.made(TWO + flow)
        fitting = tool.made(TWO + flow + 'until = "78 ms"\n')
        self.assertGreater(fitting.count("data = "), 7000)
        # Many packets are refused before they are drawn.
        with self.assertRaisesRegex(errors.Refused, "about 900,000,000 packets"):
            tool.made(TWO + POISSON.replace("1000", "1_000_000_000"))

    def test_each_flow_takes_of_one_room(self):
        flow = POISSON.replace("1000", "50_000") + 'until = "900 ms"\n'
        self.assertEqual(tool.made(TWO + flow).count("as 44 raw sources"), 1)
        with self.assertRaisesRegex(errors.Refused, "flow 1: it would have about 45,000 .* octets, and 27,... fit"):
            tool.made(TWO + flow + flow)

    def test_what_fits_is_said_before_packets_are_drawn(self):
        path = self.file("x.spec.toml", TWO + POISSON.replace("1000", "1_000_000"))
        status, said, beside = tool.call("make", path)
        self.assertEqual((status, said), (3, ""))
        self.assertRegex(beside, r"^room        for raw packets: 7[0-9],... of 100 octets; 1,024 sources\nnetwork: ")


class Recorded(tool.Folder):
    def flow(self, octets, more=""):
        """A SPEC with a flow that is recorded."""
        self.file("x.pcap", octets)
        return TWO + f'[[flow]]\nkind = "trace"\nfile = "{self.folder}/x.pcap"\n{more}'

    def test_packets_are_moved_stretched_and_readdressed(self):
        octets = pcap([(10**9, datagram(3, 1, 2)), (2 * 10**9, datagram(4, 2, 1)), (4 * 10**9, datagram(5, 1, 2))])
        text = self.flow(octets, 'from = "a"\nto = "b"\nstart = "1 ms"\nstretch = 0.1\n')
        a, b = A, 0x0A000003
        self.assertEqual(packets(text), [(1_000_000, datagram(3, a, b)), (101_000_000, datagram(4, a, b)),
                                         (301_000_000, datagram(5, a, b))])
        self.assertIn("3 packets as 1 raw source\n", tool.made(text))
        late = tool.made(text.replace("0.1", "0.4"))
        self.assertIn("2 packets as 1 raw source; left out: 1 behind its end\n", late)
        self.assertEqual(len(packets(text + "count = 2\n")), 2)

    def test_a_capture_that_is_too_long_is_refused(self):
        octets = pcap([(number, datagram(1472)) for number in range(6000)])
        text = self.flow(octets, 'from = "a"\nto = "b"\n')
        with self.assertRaisesRegex(errors.Refused, r"it would have about 6,000 packets of 1,500 octets, and 5,5.. fit "
                                                    r".*what helps: fewer packets \(`count = 55..`\)"):
            tool.made(text)
        fitting = tool.made(text + "count = 5500\n")
        self.assertEqual(fitting.count("data = "), 5500)
        self.assertLessEqual(len(fitting), limits.TEXT_OCTETS)

    def test_a_map_says_who_sends(self):
        octets = pcap([(0, datagram(3, 1, 2)), (7, datagram(4, 2, 1, 80)), (9, datagram(5, 1, 5))])
        text = self.flow(octets, 'addresses = {"0.0.0.1" = "a", "0.0.0.2/31" = "b"}\n')
        a, b = A, 0x0A000003
        self.assertEqual(packets(text), [(0, datagram(3, a, b)), (7, datagram(4, b, a, 80))])
        self.assertIn("left out: 1 not between two nodes of the map", tool.made(text))
        self.assertEqual([node["ports"] for node in tomllib.loads(tool.made(text))["node"]], [[80], [9]])

    def test_times_and_sizes_of_a_list(self):
        text = self.flow(b"0.5,10\n0.6,10\n0.7,10\n0.8,20\n", 'from = "a"\nto = "b"\nfill = 1\n')
        first, second = sources(text)
        self.assertEqual((first["start"], first["interval"], first["count"], first["size"]), (0, 10**8, 3, 10))
        self.assertEqual((second["start"], second["count"], second["size"]), (3 * 10**8, 1, 20))

    def test_what_a_recorded_flow_refuses(self):
        octets = pcap([(0, datagram(3, 1, 2))])
        ends = 'from = "a"\nto = "b"\n'
        for said, text in (
            ("packets of a capture go as they are, and cannot be scaled", "scale = 2\n" + self.flow(octets, ends)),
            ("no packet of the capture goes between two nodes of the map",
             self.flow(octets, 'addresses = {"1.1.1.1" = "a"}')),
            ('there is no node "c"', self.flow(octets, 'addresses = {"1.1.1.1" = "c"}')),
        ):
            with self.assertRaisesRegex(errors.Refused, said):
                tool.made(text)
        with self.assertRaisesRegex(errors.Refused, "a list of times and sizes has no addresses: write `from`"):
            tool.made(self.flow(b"1,2\n", 'addresses = {"1.1.1.1" = "a"}'))


class Program(tool.Folder):
    @tool.needs_nullsim
    def test_every_packet_arrives(self):
        path = self.accepted(tool.made(ALL))
        self.assertEqual(self.arrives(path), sum(source.get("count", 0) or len(source["packet"])
                                                 for source in sources(ALL)))

    @tool.needs_nullsim
    def test_the_trace_has_the_packets_as_they_were_recorded(self):
        wanted = [(at, datagram(size, A, 0x0A000003)) for at, size in ((0, 0), (10**6, 1), (2 * 10**6, 1400))]
        self.file("x.pcap", pcap([(at, datagram(len(packet) - 28, B, A)) for at, packet in wanted]))
        flow = '[[flow]]\nkind = "trace"\nfrom = "a"\nto = "b"\nfile = "x.pcap"\n'
        status, text, _ = tool.call("make", self.file("x.spec.toml", TWO + flow))
        self.assertEqual(status, 0)
        path = self.accepted(text)
        self.assertEqual(self.arrives(path), 3)
        self.assertEqual(self.nullsim("one", path, "a-b"), pcap(wanted))
