"""Reads captures: pcap of either byte order with times of microseconds or nanoseconds, and pcapng. Each record is its
time in nanoseconds, the link type, and the octets that were captured."""

import struct
from collections import namedtuple

from networks import datagrams, errors

Record = namedtuple("Record", "at link octets")

# The first four octets of a pcap file: the byte order, and how many nanoseconds the unit of its times has.
MAGICS = {b"\xa1\xb2\xc3\xd4": (">", 1000), b"\xd4\xc3\xb2\xa1": ("<", 1000),
          b"\xa1\xb2\x3c\x4d": (">", 1), b"\x4d\x3c\xb2\xa1": ("<", 1)}
PCAPNG = b"\x0a\x0d\x0d\x0a"
ORDERS = {b"\x1a\x2b\x3c\x4d": ">", b"\x4d\x3c\x2b\x1a": "<"}
SECTION, INTERFACE, ENHANCED = 0x0A0D0D0A, 1, 6
RESOLUTION, OFFSET = 9, 14
# A record or block of more octets is none.
LONGEST = 2**24
# Link types whose packets begin behind a head of so many octets: null, PPP, raw, loop, IPv4, and two of Linux.
HEADS = {0: 4, 9: 2, 12: 0, 14: 0, 101: 0, 108: 4, 113: 16, 228: 0, 276: 20}
ETHERNET, IPV4, TAGS = 1, b"\x08\x00", (b"\x81\x00", b"\x88\xa8")


def is_capture(first):
    """Whether a file that begins with these four octets is a capture."""
    return first in MAGICS or first == PCAPNG


def records(name, file):
    """The records of a capture, as they stand in it."""
    first = file.read(4)
    return from_pcapng(name, file) if first == PCAPNG else from_pcap(name, file, *MAGICS[first])


def taken(name, file, count, what):
    """So many octets of a file, or none at its end. It is refused where it ends within them."""
    held = file.read(count)
    if held and len(held) < count:
        raise errors.Refused(name, f"it ends within {what}: the capture was cut off")
    return held


def from_pcap(name, file, order, unit):
    """The records of a pcap file behind its first four octets."""
    head = taken(name, file, 20, "its header")
    if not head:
        raise errors.Refused(name, "it ends within its header: the capture was cut off")
    # Above the link type may stand how long the check sequence of its frames is.
    link, number = struct.unpack(order + "I", head[16:])[0] & 0xFFFF, 0
    while head := taken(name, file, 16, f"record {number}"):
        seconds, parts, length, _ = struct.unpack(order + "4I", head)
        if length > LONGEST:
            raise errors.Refused(name, f"record {number} would have {length:,} octets: this is no pcap file, or a "
                                       "broken one")
        octets = taken(name, file, length, f"record {number}") if length else b""
        if len(octets) < length:
            raise errors.Refused(name, f"it ends within record {number}: the capture was cut off")
        yield Record(seconds * 10**9 + parts * unit, link, octets)
        number += 1


def blocks(name, file):
    """The blocks of a pcapng file behind its first four octets: the byte order, the kind and what stands inside."""
    order, kind, at = "", SECTION, 0
    while True:
        length = taken(name, file, 4, f"block {at}")
        mark = taken(name, file, 4, f"block {at}") if kind == SECTION else b""
        if kind == SECTION:
            order = ORDERS.get(mark, "")
        said = struct.unpack(order + "I", length)[0] if order and length else 0
        if said < 12 + len(mark) or said % 4 or said > LONGEST:
            raise errors.Refused(name, f"block {at} is broken: this is no pcapng file, or it was cut off")
        inside = mark + taken(name, file, said - 8 - len(mark), f"block {at}")
        yield order, kind, inside[:-4]
        head = taken(name, file, 4, f"block {at + 1}")
        if not head:
            return
        # The kind of a section reads the same in both orders.
        kind, at = struct.unpack(order + "I", head)[0], at + 1


def options(order, inside):
    """The options of a block, by their codes."""
    found, at = {}, 0
    while at + 4 <= len(inside):
        code, length = struct.unpack_from(order + "HH", inside, at)
        if not code:
            break
        found[code] = inside[at + 4:at + 4 + length]
        at += 4 + (length + 3) // 4 * 4
    return found


def interface(order, inside):
    """The link type of an interface, how many units of its times a second has, and the second at which they begin."""
    said = options(order, inside[8:])
    resolution = said.get(RESOLUTION, b"\x06")[0]
    units = 2 ** (resolution & 127) if resolution & 128 else 10**resolution
    offset = struct.unpack(order + "q", said[OFFSET])[0] if len(said.get(OFFSET, b"")) == 8 else 0
    return struct.unpack_from(order + "H", inside)[0], units, offset


def from_pcapng(name, file):
    """The records of a pcapng file behind its first four octets; packets that have no time are passed over."""
    interfaces = []
    for order, kind, inside in blocks(name, file):
        if kind == SECTION:
            interfaces = []
        elif kind == INTERFACE:
            interfaces.append(interface(order, inside))
        elif kind == ENHANCED:
            number, high, low, length = struct.unpack_from(order + "4I", inside)
            if number >= len(interfaces) or length > len(inside) - 20:
                raise errors.Refused(name, "a packet is of an interface that is not there, or longer than its block")
            link, units, offset = interfaces[number]
            at = offset * 10**9 + (high << 32 | low) * 10**9 // units
            yield Record(at, link, inside[20:20 + length])


def packet_of(record):
    """The whole IPv4 packet of a record, or None."""
    if record.link != ETHERNET:
        begin = HEADS.get(record.link)
        return None if begin is None else datagrams.readable(record.octets[begin:])
    at = 12
    while record.octets[at:at + 2] in TAGS:
        at += 4
    return datagrams.readable(record.octets[at + 2:]) if record.octets[at:at + 2] == IPV4 else None
