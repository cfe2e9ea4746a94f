"""Captures and lists of times: every form is read alike, packets get right checksums, and what is broken is refused."""

import struct

from networks import captures, datagrams, errors, recorded
from networks.tests import tool

MTU = 1500
A, B, C = 0x0A000001, 0x0A000002, 0xC0000201


def datagram(size, source=A, to=B, dport=9):
    """A datagram as octets."""
    return bytes.fromhex(datagrams.Datagrams(source, to, 7, dport, 64, 0x61).made(size, 3))


PACKETS = [(1_500_000_000, datagram(10)), (1_500_002_000, datagram(11)), (3_000_000_000, datagram(0, to=C))]


def pcap(records, order="<", unit=1, link=101, head=b""):
    """A pcap file: each packet behind a head of its link type."""
    magic = 0xA1B23C4D if unit == 1 else 0xA1B2C3D4
    parts = [struct.pack(order + "IHHIIII", magic, 2, 4, 0, 0, 65_535, link)]
    for at, packet in records:
        seconds, rest = divmod(at, 10**9)
        octets = head + packet
        parts.append(struct.pack(order + "IIII", seconds, rest // unit, len(octets), len(octets)) + octets)
    return b"".join(parts)


def block(order, kind, inside):
    """A block of a pcapng file."""
    inside += b"\0" * (-len(inside) % 4)
    return struct.pack(order + "II", kind, len(inside) + 12) + inside + struct.pack(order + "I", len(inside) + 12)


def pcapng(records, order="<", resolution=9):
    """A pcapng file with one interface, and between its packets a block that nobody knows."""
    parts = [block(order, 0x0A0D0D0A, struct.pack(order + "IHHq", 0x1A2B3C4D, 1, 0, -1))]
    options = struct.pack(order + "HHB3x", 9, 1, resolution) + struct.pack(order + "HHq", 14, 8, 1) + b"\0" * 4
    parts.append(block(order, 1, struct.pack(order + "HHI", 101, 0, 0) + options))
    units = 2 ** (resolution & 127) if resolution & 128 else 10**resolution
    for at, packet in records:
        time = -(-(at - 10**9) * units // 10**9)
        head = struct.pack(order + "IIIII", 0, time >> 32, time & 0xFFFFFFFF, len(packet), len(packet))
        parts += [block(order, 6, head + packet), block(order, 0xBAD, b"what")]
    return b"".join(parts)


class Captures(tool.Folder):
    def recording(self, octets):
        """What is read of a file with these octets."""
        return recorded.read(self.file("x.pcap", octets), "place", MTU)

    def test_each_form_of_a_capture_has_the_same_packets(self):
        ethernet = bytes(12) + b"\x08\x00"
        tagged = bytes(12) + b"\x81\x00\x00\x05\x08\x00"
        forms = [pcap(PACKETS, order, unit) for order in "<>" for unit in (1, 1000)]
        forms += [pcap(PACKETS, link=link, head=head) for link, head in
                  ((1, ethernet), (1, tagged), (228, b""), (12, b""), (9, b"\0\x21"), (0, bytes(4)), (113, bytes(16)),
                   (276, bytes(20)))]
        forms += [pcapng(PACKETS, order, resolution) for order in "<>" for resolution in (9, 6)]
        for number, octets in enumerate(forms):
            with self.subTest(number=number):
                found = self.recording(octets)
                self.assertTrue(found.is_capture)
                self.assertEqual((found.packets, dict(found.left)), (PACKETS, {}))

    def test_times_of_powers_of_two_are_rounded_down(self):
        found = self.recording(pcapng(PACKETS, "<", 128 | 30))
        self.assertTrue(all(0 <= at - wanted <= 1 for (at, _), (wanted, _) in zip(found.packets, PACKETS)))

    def test_what_is_no_packet_is_left_out(self):
        cut, other = datagram(100)[:60], bytes([0x60]) + bytes(50)
        found = self.recording(pcap([(0, cut), (1, other), (2, b""), (3, datagram(1473)), (4, datagram(1472)),
                                     (5, datagram(1) + b"padding")]))
        self.assertEqual(dict(found.left), {"no whole packet of IPv4": 3, "longer than the mtu of 1,500 octets": 1})
        self.assertEqual(found.packets, [(4, datagram(1472)), (5, datagram(1))])
        self.assertEqual(self.recording(pcap([])).packets, [])
        # ARP in Ethernet, and a link type that nobody knows.
        self.assertEqual(self.recording(pcap(PACKETS, link=1, head=bytes(12) + b"\x08\x06")).packets, [])
        self.assertEqual(self.recording(pcap(PACKETS, link=147)).packets, [])

    def test_what_is_cut_off_or_broken_is_refused(self):
        for octets in (pcap(PACKETS)[:20], pcap(PACKETS)[:30], pcap(PACKETS)[:45], pcap(PACKETS)[:-1], pcap([])[:4],
                       pcapng(PACKETS)[:-1], pcapng(PACKETS)[:6], pcapng(PACKETS)[:40]):
            with self.assertRaisesRegex(errors.Refused, r"x\.pcap: (it ends within|block . is broken).*cut off"):
                self.recording(octets)
        with self.assertRaisesRegex(errors.Refused, "record 0 would have 4,294,967,295 octets"):
            self.recording(pcap([])[:24] + b"\xff" * 16)
        orphan = pcapng([])[:28] + block("<", 6, struct.pack("<5I", 3, 0, 0, 0, 0))
        for octets in (b"\x0a\x0d\x0d\x0a" + b"\xff" * 40, orphan):
            with self.assertRaises(errors.Refused):
                self.recording(octets)

    def test_checksums_are_made_anew(self):
        # A datagram, one without a checksum, and a segment of TCP and an echo request whose checksums are wrong.
        bad = bytearray(datagram(9, A, B))
        bad[10:12], bad[26:28] = b"\xde\xad", b"\xbe\xef"
        self.assertEqual(datagrams.readdressed(bytes(bad), A, C), datagram(9, A, C))
        bad[26:28] = b"\0\0"
        self.assertEqual(datagrams.readdressed(bytes(bad), A, C)[26:28], b"\0\0")
        for protocol, place, length in ((6, 16, 21), (1, 2, 9)):
            packet = bytearray(datagram(length - 8))
            packet[9] = protocol
            found = datagrams.readdressed(bytes(packet), C, B)
            over = datagrams.pseudo(C, B, protocol, length) if protocol == 6 else 0
            self.assertEqual(datagrams.checksum(datagrams.words(found[:20])), 0)
            self.assertEqual(datagrams.checksum(datagrams.words(found[20:]) + over), 0)
            self.assertNotEqual(found[20 + place:22 + place], b"\0\0")
        # Of a fragment only the header is made anew.
        fragment = bytearray(datagram(9))
        fragment[6] = 0x20
        self.assertEqual(datagrams.readdressed(bytes(fragment), C, B)[20:], bytes(fragment[20:]))

    def test_the_longest_prefix_of_the_map_decides(self):
        found = self.recording(pcap(PACKETS))
        nodes = recorded.by_nodes(found, {(0x0A000000, 8): "x", (A, 32): "y", (0, 0): "z"})
        self.assertEqual({key: len(some) for key, some in nodes.items()}, {("y", "x"): 2, ("y", "z"): 1})
        self.assertEqual(recorded.by_nodes(found, {(0x0A000000, 8): "x"}), {})
        self.assertEqual(found.left["not between two nodes of the map"], 3)

    def test_no_two_packets_go_at_one_time(self):
        packets = [(5, "b"), (5, "c"), (1, "a"), (6, "d")]
        self.assertEqual(list(recorded.moved(packets, 1, 100, 1)), [(100, "a"), (104, "b"), (105, "c"), (106, "d")])
        self.assertEqual([at for at, _ in recorded.moved(packets, 1, 0, 10)], [0, 40, 41, 50])


class Lists(tool.Folder):
    def test_times_have_units_or_are_seconds(self):
        path = self.file("x.csv", "time,size\n0.000000001,0\n# what\n\n1.5 ms , 10\n2e-3,1472\n1,1473\n10,5\n")
        found = recorded.read(path, "place", MTU)
        self.assertFalse(found.is_capture)
        self.assertEqual(found.packets, [(1, 0), (1_500_000, 10), (2_000_000, 1472), (10**10, 5)])
        self.assertEqual(dict(found.left), {"longer than the mtu of 1,500 octets": 1})

    def test_bad_lines_have_their_number(self):
        for text in ("1,2\nx,3\n", "1,2\n3\n", "1,2\n3,4,5\n", "1,2\n3,-4\n", "1,2\n3,1e3\n", "1,2\n-1,3\n"):
            with self.assertRaisesRegex(errors.Refused, r"x\.csv:2: a line has a time, as `0.0015` \(seconds\)"):
                recorded.read(self.file("x.csv", text), "place", MTU)

    def test_files_that_cannot_be_read(self):
        with self.assertRaisesRegex(errors.Refused, 'place: key "file": "/nosuch" cannot be read: No such file'):
            recorded.read("/nosuch", "place", MTU)
        with self.assertRaisesRegex(errors.Refused, "is no pcap, no pcapng and no list of times and sizes"):
            recorded.read(self.file("x", b"\xff\xfe\0\0\0\0"), "place", MTU)

    def test_files_are_beside_the_spec(self):
        self.assertEqual(recorded.path_of("a/b.toml", "c"), "a/c")
        self.assertEqual(recorded.path_of("-", "c"), "c")
        self.assertEqual(recorded.path_of("a/b.toml", "/c"), "/c")
        self.assertTrue(captures.is_capture(b"\x0a\x0d\x0d\x0a"))
