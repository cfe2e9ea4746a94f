"""Doors: ports behind which replicas are called. A plan says for each connection how a door carries it: where it cuts,
holds back, trickles and stops what it carries."""

import contextlib
import random
import socket
import struct
import threading
import time
from collections import deque, namedtuple
from dataclasses import dataclass

from dev.lib.frames import BYE, Frames
from dev.lib.nodes import HOST

PIECE = 65_536
ENDLESS = 1 << 62
# Between octets that go one at a time.
TRICKLE_SECONDS = 0.001
# What waits in the system of the door, so that who writes has to wait while it stops reading.
WINDOW = 8_192
# The octets of a Bye.
BYE_OCTETS = 5
# Who sees the frames that a door carries, by default nobody: what is called where a frame was read (frame, sender,
# receiver), was forwarded to its last octet (frame, receiver), and where a connection was cut, perhaps once a Bye had
# come, and these frames were lost with it (is_late, lost).
Watch = namedtuple("Watch", "read delivered cut", defaults=[lambda *_: None] * 3)


@dataclass
class Manner:
    """How a connection is carried; each number is of one way."""
    # Cut after so many octets, of the caller's way alone or of each; or once so many seconds have passed, at a random
    # octet of the next piece; or within a Bye, with such a chance.
    cut_after: int | None = None
    is_one_way: bool = False
    cut_seconds: float | None = None
    cuts_bye: float = 0.0
    # A cut is a reset, and not an end.
    is_reset: bool = False
    # A piece is held back for so many seconds at least, and for up to so many more.
    held_least: float = 0.0
    held: float = 0.0
    # So many of the first octets go one at a time.
    trickled: int = 0
    # After so many octets nothing is read for so many seconds.
    stop_at: int = 0
    stop: float = 0.0


class Way:
    """One direction of a connection: what was read, and what of it was not forwarded yet."""

    def __init__(self, side, other, ends, chance):
        self.side, self.other, self.ends, self.chance = side, other, ends, chance
        self.frames, self.whole = Frames(), deque()
        self.passed, self.has_bye = 0, False


class Connection:
    """A connection that a door carries, each way in a thread of its own."""

    def __init__(self, door, near, far, manner, chance):
        self.door, self.near, self.far, self.manner = door, near, far, manner
        caller, called = door.pair
        self.ways = [Way(near, far, (caller, called), random.Random(chance.random())),
                     Way(far, near, (called, caller), random.Random(chance.random()))]
        self.begun, self.over = time.monotonic(), threading.Event()

    def carry(self):
        """Carries it to its end: whether both Byes were forwarded."""
        threads = [threading.Thread(target=self.carry_way, args=(way,), daemon=True) for way in self.ways]
        for thread in threads:
            thread.start()
        for thread in threads:
            thread.join()
        for end in (self.near, self.far):
            end.close()
        return all(way.has_bye for way in self.ways)

    def carry_way(self, way):
        """Forwards what a side sends, until it ends or the connection is cut."""
        stop = self.manner.stop
        try:
            while not self.over.is_set():
                if stop and way.passed >= self.manner.stop_at and not self.door.has_bye():
                    self.door.stops += 1
                    self.over.wait(stop)
                    stop = 0
                octets = way.side.recv(max(1, min(PIECE, self.left(way))))
                if not octets:
                    way.other.shutdown(socket.SHUT_WR)
                    return
                keep, is_cut = self.keep(way, octets)
                self.forward(way, octets[:keep])
                if is_cut:
                    self.cut()
        except OSError:
            self.end()
        except ValueError as fault:
            self.door.faults.append(f"{way.ends[0]} sent {fault}")
            self.end()

    def left(self, way):
        """How many octets are left before the cut."""
        counts = self.manner.cut_after is not None and (way is self.ways[0] or not self.manner.is_one_way)
        return self.manner.cut_after - way.passed if counts and self.door.may_cut() else ENDLESS

    def keep(self, way, octets):
        """How many of these octets are forwarded, and whether the connection is cut behind them."""
        left, seconds = self.left(way), self.manner.cut_seconds
        keep, is_cut = max(0, min(len(octets), left)), left <= len(octets)
        if seconds is not None and time.monotonic() >= self.begun + seconds and self.door.may_cut():
            keep, is_cut = way.chance.randrange(keep + 1), True
        for frame in way.frames.feed(octets):
            self.door.watch.read(frame, *way.ends)
            way.whole.append(frame)
            if frame.kind == BYE:
                self.door.byes.setdefault(way.ends[0], time.monotonic())
                if way.chance.random() < self.manner.cuts_bye and self.door.may_cut():
                    within = frame.end - way.passed - 1 - way.chance.randrange(BYE_OCTETS)
                    keep, is_cut = max(0, min(keep, within)), True
                self.door.byes_cut += frame.end - way.passed > keep
        return keep, is_cut

    def forward(self, way, octets):
        if self.manner.held_least or self.manner.held:
            self.over.wait(self.manner.held_least + way.chance.random() * self.manner.held)
        slow = max(0, min(len(octets), self.manner.trickled - way.passed))
        for octet in octets[:slow]:
            way.other.sendall(bytes([octet]))
            self.over.wait(TRICKLE_SECONDS)
        way.other.sendall(octets[slow:])
        way.passed += len(octets)
        # Those that were forwarded to their last octet.
        while way.whole and way.whole[0].end <= way.passed:
            frame = way.whole.popleft()
            way.has_bye |= frame.kind == BYE
            self.door.watch.delivered(frame, way.ends[1])

    def cut(self):
        """Cuts the connection, where it is not over by itself."""
        if not self.over.is_set():
            self.door.cuts += 1
            self.door.cuts_late += self.door.has_bye()
            self.door.watch.cut(self.door.has_bye(), [frame for way in self.ways for frame in way.whole])
            self.end(self.manner.is_reset)

    def end(self, is_reset=False):
        self.over.set()
        for end in (self.near, self.far):
            with contextlib.suppress(OSError):
                if is_reset:
                    end.setsockopt(socket.SOL_SOCKET, socket.SO_LINGER, struct.pack("ii", 1, 0))
                end.shutdown(socket.SHUT_RDWR)


class Door:
    """A port that joins those who call a replica with the place where it listens, each connection in the manner that
    `plan` gives for the door."""

    def __init__(self, pair, place, plan, chance, most_late=1_000, watch=Watch(), host=HOST):
        self.pair, self.place, self.plan, self.chance = pair, place, plan, chance
        self.most_late, self.watch = most_late, watch
        self.count = self.disturbed = self.broken = self.cuts = self.cuts_late = self.byes_cut = self.stops = 0
        self.faults = []
        # When each of both sent its first Bye.
        self.byes = {}
        self.open, self.is_over = [], False
        self.socket = socket.socket()
        self.socket.setsockopt(socket.SOL_SOCKET, socket.SO_RCVBUF, WINDOW)
        self.socket.bind((host, 0))
        self.socket.listen(64)
        self.number = self.socket.getsockname()[1]
        threading.Thread(target=self.serve, daemon=True).start()

    def has_bye(self):
        return bool(self.byes)

    def may_cut(self):
        """Whether a connection may be cut: once a Bye came only so many are."""
        return not self.has_bye() or self.cuts_late < self.most_late

    def serve(self):
        with contextlib.suppress(OSError):
            while True:
                threading.Thread(target=self.join, args=self.socket.accept()[:1], daemon=True).start()

    def join(self, near):
        """Carries a connection to the replica, if it listens."""
        far = socket.socket()
        try:
            far.setsockopt(socket.SOL_SOCKET, socket.SO_RCVBUF, WINDOW)
            far.connect(self.place)
            for end in (near, far):
                end.setsockopt(socket.IPPROTO_TCP, socket.TCP_NODELAY, 1)
        except OSError:
            near.close()
            far.close()
            return
        self.count += 1
        manner = self.plan(self)
        self.disturbed += manner != Manner()
        connection = Connection(self, near, far, manner, self.chance)
        self.open.append(connection)
        if self.is_over:
            connection.end()
        self.broken += not connection.carry()

    def close(self):
        self.is_over = True
        self.socket.shutdown(socket.SHUT_RDWR)
        self.socket.close()
        for connection in list(self.open):
            connection.end()


def doors_of(network, places, plan_of, chance, most_late=1_000, **how):
    """A door for each pair of which one calls the other. `places` has where each listens, a port of 127.0.0.1 or an
    address and a port; `plan_of` gives the plan of a pair."""
    where = {key: place if isinstance(place, tuple) else (HOST, place) for key, place in places.items()}
    return {pair: Door(pair, where[pair[1]], plan_of(pair), random.Random(chance.random()), most_late, **how)
            for pair in network.pairs()}


def first_byes(doors):
    """When each replica sent its first Bye to anyone, as far as one was seen."""
    byes = sorted(((moment, key) for door in doors.values() for key, moment in door.byes.items()), reverse=True)
    return {key: moment for moment, key in byes}
