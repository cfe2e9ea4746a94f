"""Trace files: their records, read and written."""

import struct

# The link types of raw IP and of PPP, and the octets that PPP puts before a packet of IPv4.
RAW, PPP = 101, 9
PPP_HEADER = b"\x00\x21"
# The most octets of a record, as the header of our files says it.
LONGEST = 65_535
NANOSECONDS = 0xA1B23C4D


class BadTrace(Exception):
    """A file that is no trace with nanosecond times."""


def records(octets):
    """The records of a trace file, each a time in nanoseconds and the octets of the IPv4 packet."""
    magic, _, _, _, _, _, kind = struct.unpack_from("<IHHIIII", octets)
    if magic != NANOSECONDS or kind not in (RAW, PPP):
        raise BadTrace(f"its first words are {magic:#x}, and the link type {kind}")
    found, at = [], 24
    while at + 16 <= len(octets):
        seconds, nanoseconds, length, whole = struct.unpack_from("<IIII", octets, at)
        packet = octets[at + 16:at + 16 + length]
        if length != whole or len(packet) != length or (kind == PPP and packet[:2] != PPP_HEADER):
            raise BadTrace(f"the record at octet {at}")
        found.append((seconds * 10 ** 9 + nanoseconds, packet[2:] if kind == PPP else packet))
        at += 16 + length
    if at != len(octets):
        raise BadTrace(f"{len(octets) - at} octets behind the last record")
    return found


def raw(found):
    """The octets of a trace file of these records with the link type of raw IP, as docs/FORMATS.md has it."""
    parts = [struct.pack("<IHHIIII", NANOSECONDS, 2, 4, 0, 0, LONGEST, RAW)]
    for at, packet in found:
        parts.append(struct.pack("<IIII", *divmod(at, 10 ** 9), len(packet), len(packet)) + packet)
    return b"".join(parts)
