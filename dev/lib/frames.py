"""The frames of a connection (docs/PROTOCOL.md, Frames): written, and read as far as their kinds and numbers."""

import struct
from collections import namedtuple

HELLO, HAVE, DATA, NULL, BYE = range(1, 6)
VERSION = 2
# The greatest length that a frame may say.
GREATEST = 65_556
# The end of a frame in its stream, its kind, the channel and number of a message, and what is behind its length.
Frame = namedtuple("Frame", "end kind channel number body")


def frame(body):
    """A frame whose length is that of its body."""
    return struct.pack(">I", len(body)) + body


def hello(partition, digest, replica=0, version=VERSION):
    return frame(struct.pack(">B4sHIB", HELLO, b"NMS1", version, partition, replica) + digest)


def have(channel, number):
    return frame(struct.pack(">BIQ", HAVE, channel, number))


def data(channel, number, arrival, packet):
    return frame(struct.pack(">BIQQ", DATA, channel, number, arrival) + packet)


def null(channel, count, clock):
    return frame(struct.pack(">BIQQ", NULL, channel, count, clock))


def bye():
    return frame(struct.pack(">B", BYE))


class Frames:
    """Reads the frames of a stream that comes in pieces."""

    def __init__(self):
        self.rest, self.passed = bytearray(), 0

    def feed(self, octets):
        """The frames that end in this piece. ValueError where the stream is none of frames."""
        self.rest += octets
        found = []
        while len(self.rest) >= 4:
            length = int.from_bytes(self.rest[:4], "big")
            if not 1 <= length <= GREATEST:
                raise ValueError(f"a frame of length {length}")
            if len(self.rest) < 4 + length:
                break
            body = bytes(self.rest[4:4 + length])
            numbers = struct.unpack_from(">IQ", body, 1) if body[0] == DATA else (None, None)
            del self.rest[:4 + length]
            self.passed += 4 + length
            found.append(Frame(self.passed, body[0], *numbers, body))
        return found


def read_until(connection, is_enough, seconds=30):
    """The frames that come over a connection until they are enough, or nothing more comes."""
    reader, found = Frames(), []
    connection.settimeout(seconds)
    while not is_enough(found):
        piece = connection.recv(65_536)
        if not piece:
            break
        found += reader.feed(piece)
    return found


def has_bye(found):
    """Whether a Bye is among frames."""
    return any(it.kind == BYE for it in found)
