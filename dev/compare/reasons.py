"""Why ns-3 sends another packet than nullsim: the known reasons, by the two packets of the first difference.

A port is first in, first out, so that of all interfaces the earliest record that differs is itself what one of both
sends otherwise, and no consequence of it. A reason is taken only where the packets show it: what no reason explains is
an unknown difference.
"""

import struct

# Each reason, by its short name, as docs/COMPARED.md lists it.
REASONS = {
    "no error": "ns-3 sends no ICMP error where a router has no route (3, 0) or a node has no such protocol (3, 2)",
    "time to live 0": "a router of ns-3 lowers a time to live of 0 to 255, and forwards the packet",
    "options": "ns-3 takes the options out of a header that it forwards or quotes",
    "short quote": "ns-3 fills a quote of fewer than 8 octets of data with zeros",
    "not withheld": "ns-3 sends an error about an ICMP error, an empty ICMP message or a later fragment",
    "reassembly": "ns-3 puts fragments together at their destination, and sends the error 11, 1 where some do not come "
                  "in 30 s",
    "UDP length": "ns-3 sums all octets after the header, where the UDP length says fewer",
    "UDP checksum": "ns-3 takes a UDP checksum of 0, which says that there is none, for a wrong one",
    "echo code": "ns-3 answers an echo request whose code is not 0",
    "ICMP checksum": "ns-3 does not test the checksum of an ICMP message",
    "reserved flag": "ns-3 clears the reserved flag of a header that it forwards or quotes",
}
ICMP, UDP = 1, 17
UNREACHABLE, EXCEEDED, ECHO, REPLY = 3, 11, 8, 0
# ICMP messages about which no error is sent.
ERRORS = (3, 4, 5, 11, 12)


class Header:
    """The fields of a packet with a whole header."""

    def __init__(self, octets):
        self.octets = octets
        self.length = (octets[0] & 15) * 4
        self.total, self.identification, fragment = struct.unpack_from(">HHH", octets, 2)
        self.is_reserved, self.offset = bool(fragment & 0x8000), fragment & 0x1FFF
        self.ttl, self.protocol = octets[8], octets[9]
        self.payload = octets[self.length:self.total]

    def message(self):
        """The type and code of a whole ICMP message, or nothing."""
        return tuple(self.payload[:2]) if self.protocol == ICMP and not self.offset and len(self.payload) >= 8 else None

    def quote(self):
        """The header that an ICMP error quotes, or nothing."""
        message = self.message()
        is_error = message and message[0] in (UNREACHABLE, EXCEEDED) and len(self.payload) >= 28
        return Header(self.payload[8:]) if is_error else None


def header(octets):
    return Header(octets) if octets and len(octets) >= 20 and octets[0] >> 4 == 4 else None


def missing(ours):
    """Why ns-3 may not send a packet of ours."""
    quote, message = ours.quote(), ours.message()
    if ours.ttl == 255 or not quote:
        return None
    if message in ((UNREACHABLE, 0), (UNREACHABLE, 2)):
        return "no error"
    if message[0] == EXCEEDED and quote.ttl == 0:
        return "time to live 0"
    if message == (UNREACHABLE, 3) and quote.length + 8 <= len(quote.octets):
        length, checksum = struct.unpack_from(">HH", quote.octets, quote.length + 4)
        if checksum == 0:
            return "UDP checksum"
        if length < quote.total - quote.length:
            return "UDP length"
    return None


def extra(theirs, arrived):
    """Why ns-3 may send a packet that we do not; `arrived` are the packets that came to the node until then."""
    quote, message = theirs.quote(), theirs.message()
    if theirs.ttl == 255 and any(come.ttl == 0 and come.identification == theirs.identification for come in arrived):
        return "time to live 0"
    if message == (EXCEEDED, 1):
        return "reassembly"
    # The packet that is quoted, which may have had options, where it is among those that came.
    came = next((come for come in arrived if quote and come.identification == quote.identification
                 and come.octets[12:20] == quote.octets[12:20]), quote)
    if quote and (came.offset > 0 or came.protocol == ICMP
                  and (came.total == came.length or came.octets[came.length] in ERRORS)):
        return "not withheld"
    return reply(theirs, arrived) if message and message[0] == REPLY else None


def reply(theirs, arrived):
    """Why ns-3 may answer an echo request that we do not answer."""
    for come in arrived:
        if come.protocol == ICMP and come.payload[:1] == bytes([ECHO]) and come.payload[4:] == theirs.payload[4:]:
            if come.payload[1] != 0:
                return "echo code"
            octets = come.payload + b"\0" * (len(come.payload) % 2)
            # The one's complement sum of its words is 0xFFFF where their sum is a multiple of it.
            if sum(struct.unpack(f">{len(octets) // 2}H", octets)) % 0xFFFF:
                return "ICMP checksum"
    return None


def changed(ours, theirs):
    """Why one packet may look otherwise in ns-3."""
    if ours.length > 20 and theirs.length == 20 and ours.identification == theirs.identification:
        return "options"
    if ours.is_reserved and not theirs.is_reserved and ours.octets[12:] == theirs.octets[12:]:
        return "reserved flag"
    if ours.message() and ours.message() == theirs.message() and ours.quote() and theirs.quote():
        return quoted(ours.quote(), theirs.quote())
    return None


def quoted(ours, theirs):
    """Why one error may quote otherwise in ns-3."""
    if ours.length > 20 and theirs.length == 20:
        return "options"
    if ours.is_reserved and not theirs.is_reserved:
        return "reserved flag"
    if len(ours.octets) < ours.length + 8:
        return "short quote"
    return None


def reason(difference, arrived):
    """The short name of the reason of a first difference, or nothing."""
    ours, theirs = header(difference.our_packet), header(difference.their_packet)
    arrived = [come for come in map(header, arrived) if come]
    return ((ours and theirs and changed(ours, theirs)) or (theirs and extra(theirs, arrived))
            or (ours and missing(ours)) or None)
