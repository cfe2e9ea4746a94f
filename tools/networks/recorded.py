"""Recorded traffic: the packets of a capture, or the times and sizes of a list."""

import csv
import os
import re
from collections import Counter
from dataclasses import dataclass, field
from fractions import Fraction

from networks import captures, datagrams, errors, limits, units

# Seconds without a unit, as tshark prints them.
SECONDS = re.compile(r"[0-9]{1,10}(\.[0-9]{0,18})?([eE]-?[0-9]{1,2})?")
SIZE = re.compile(r"[0-9]{1,9}")
# More packets than any text has are not read.
MOST = limits.SOURCES * limits.RAW_PACKETS


@dataclass
class Recording:
    """Each packet is its time in nanoseconds and, of a capture, its octets, or else how many octets of data it has.
    `left` counts what was left out, by why."""

    is_capture: bool
    packets: list = field(default_factory=list)
    left: Counter = field(default_factory=Counter)


def path_of(spec_name, name):
    """Files are named as they are seen from the SPEC."""
    return os.path.join("" if spec_name == "-" else os.path.dirname(spec_name), name)


def read(path, place, mtu):
    """The recording of a file."""
    try:
        with open(path, "rb") as file:
            first = file.read(4)
        if captures.is_capture(first):
            with open(path, "rb") as file:
                return of_capture(path, file, mtu)
        with open(path, encoding="utf-8-sig", newline="") as file:
            return of_list(path, file, mtu)
    except OSError as why:
        raise errors.Refused(place, f'key "file": {errors.shown(path)} cannot be read: {why.strerror}') from None
    except (UnicodeDecodeError, csv.Error):
        raise errors.Refused(place, f'key "file": {errors.shown(path)} is no pcap, no pcapng and no list of times and '
                                    "sizes") from None


def of_capture(path, file, mtu):
    """What of a capture may be sent: whole packets of IPv4 that are not longer than the mtu."""
    made = Recording(True)
    for record in captures.records(path, file):
        packet = captures.packet_of(record)
        if packet is None:
            made.left["no whole packet of IPv4"] += 1
        elif len(packet) > mtu:
            made.left[f"longer than the mtu of {mtu:,} octets"] += 1
        else:
            made.packets.append((record.at, packet))
        if len(made.packets) == MOST:
            break
    return made


def time_of(text):
    """A time of a list in nanoseconds: seconds, or with a unit; None where it is none."""
    text = text.strip()
    return round(Fraction(text) * 10**9) if SECONDS.fullmatch(text) else units.quantity(text, units.TIMES)


def of_list(path, file, mtu):
    """The times and sizes of a list, whose first line may be a head."""
    made = Recording(False)
    for number, row in enumerate(csv.reader(file), 1):
        words = [word.strip() for word in row]
        if not any(words) or words[0].startswith("#"):
            continue
        at = time_of(words[0])
        size = int(words[1]) if len(words) == 2 and SIZE.fullmatch(words[1]) else None
        if at is None and number == 1:
            continue
        if at is None or size is None:
            raise errors.Refused(f"{path}:{number}", "a line has a time, as `0.0015` (seconds) or `1.5 ms`, a comma "
                                                     "and how many octets of data the packet has")
        if size > mtu - limits.HEADERS:
            made.left[f"longer than the mtu of {mtu:,} octets"] += 1
        else:
            made.packets.append((at, size))
        if len(made.packets) == MOST:
            break
    return made


def by_nodes(recording, addresses):
    """The packets of each two nodes, whose addresses the map has: the longest prefix decides. Others are counted."""
    known = {}

    def node(address):
        if address not in known:
            known[address] = next((addresses[address >> 32 - length << 32 - length, length]
                                   for length in range(32, -1, -1)
                                   if (address >> 32 - length << 32 - length, length) in addresses), None)
        return known[address]

    found = {}
    for at, packet in recording.packets:
        one, other = map(node, datagrams.ends(packet))
        if one is None or other is None or one == other:
            recording.left["not between two nodes of the map"] += 1
        else:
            found.setdefault((one, other), []).append((at, packet))
    return found


def moved(packets, origin, start, stretch):
    """The packets in the order of time, from a start on. Of two at one time the second goes 1 ns later, as a raw source
    has to have it."""
    last = -1
    for at, packet in sorted(packets, key=lambda pair: pair[0]):
        last = max(last + 1, start + round((at - origin) * stretch))
        yield last, packet
