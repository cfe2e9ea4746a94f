"""IPv4 packets as octets: UDP datagrams that are made, and packets of a capture that get other addresses."""

import struct

UDP, TCP, ICMP = 17, 6, 1
HEADER = 20
# Of the two octets with the offset of a fragment: more fragments follow, or this is not the first.
FRAGMENT = 0x3FFF
# Where the checksum stands behind the header of IPv4, and whether addresses are in it.
CHECKSUMS = {UDP: (6, True), TCP: (16, True), ICMP: (2, False)}


def words(octets):
    """The sum of the words of 16 bits, the last one filled up with zeros."""
    even = octets + b"\0" if len(octets) % 2 else octets
    return sum(struct.unpack(f">{len(even) // 2}H", even))


def checksum(total):
    """The checksum of what has this sum of words (RFC 1071)."""
    while total >> 16:
        total = (total & 0xFFFF) + (total >> 16)
    return ~total & 0xFFFF


def pseudo(source, to, protocol, length):
    """The sum of the words of the pseudo header."""
    return (source >> 16) + (source & 0xFFFF) + (to >> 16) + (to & 0xFFFF) + protocol + length


def never_zero(found):
    """The checksum of UDP: 0 would say that there is none (RFC 768)."""
    return found or 0xFFFF


class Datagrams:
    """Makes the datagrams of a flow, in hexadecimal. Those of one size differ in their identification alone."""

    def __init__(self, source, to, sport, dport, ttl, fill):
        self.ends, self.ports, self.ttl, self.fill = (source, to), (sport, dport), ttl, fill
        self.known = {}

    def parts(self, size):
        """What stands before the identification, the header's sum without it, and what stands behind the header's
        checksum, of datagrams with so many octets of data."""
        data, length = bytes([self.fill]) * size, size + 8
        head = struct.pack(">HHH", *self.ports, length)
        udp = never_zero(checksum(words(head) + words(data) + pseudo(*self.ends, UDP, length)))
        behind = struct.pack(">II", *self.ends)
        total = 0x4500 + length + HEADER + (self.ttl << 8 | UDP) + words(behind)
        return f"4500{length + HEADER:04x}", total, behind.hex() + head.hex() + f"{udp:04x}" + data.hex()

    def made(self, size, identification):
        """A datagram."""
        if size not in self.known:
            self.known[size] = self.parts(size)
        before, total, behind = self.known[size]
        header = checksum(total + identification)
        return f"{before}{identification:04x}0000{self.ttl:02x}11{header:04x}{behind}"


def readable(octets):
    """The whole IPv4 packet at the front of some octets, or None where there is none."""
    if len(octets) < HEADER or octets[0] >> 4 != 4:
        return None
    length, header = int.from_bytes(octets[2:4], "big"), (octets[0] & 15) * 4
    return octets[:length] if HEADER <= header <= length <= len(octets) else None


def ends(packet):
    """From where a packet goes to where."""
    return struct.unpack_from(">II", packet, 12)


def udp_port(packet):
    """The port to which a datagram goes, or None of any other packet."""
    at = (packet[0] & 15) * 4
    if packet[9] != UDP or int.from_bytes(packet[6:8], "big") & 0x1FFF or len(packet) < at + 8:
        return None
    return int.from_bytes(packet[at + 2:at + 4], "big")


def readdressed(packet, source, to):
    """The packet with other addresses, and with right checksums: a capture has wrong ones where the card makes them."""
    held, at = bytearray(packet), (packet[0] & 15) * 4
    struct.pack_into(">II", held, 12, source, to)
    place, has_addresses = CHECKSUMS.get(held[9], (None, False))
    is_whole = not int.from_bytes(held[6:8], "big") & FRAGMENT
    if place is not None and is_whole and len(held) >= at + place + 2:
        said_none = held[9] == UDP and held[at + 6:at + 8] == b"\0\0"
        struct.pack_into(">H", held, at + place, 0)
        total = words(bytes(held[at:])) + (pseudo(source, to, held[9], len(held) - at) if has_addresses else 0)
        found = checksum(total)
        struct.pack_into(">H", held, at + place, 0 if said_none else never_zero(found) if held[9] == UDP else found)
    struct.pack_into(">H", held, 10, 0)
    struct.pack_into(">H", held, 10, checksum(words(bytes(held[:at]))))
    return bytes(held)
