"""Machines of their own: network namespaces at a switch, perhaps behind a delay."""

import ctypes
import fcntl
import itertools
import os
import select
import signal
import struct
import time
from collections import deque

from dev.lib import process

FOLDER = "/run/netns"
NEW_NETWORK = 0x40000000
DIES_WITH_PARENT = 1
# Of a tap device (linux/if_tun.h): frames of Ethernet without a head before them.
SET_TAP, TAP, NO_HEAD = 0x400454CA, 0x0002, 0x1000
FRAME = 65_536

_numbers = itertools.count()


class Unable(Exception):
    """The system allows no network namespaces, or not what is asked of them."""


def ip(*words, program="ip"):
    """A call of ip(8), or of another program of iproute2."""
    try:
        ended = process.call([program, *words])
    except OSError as why:
        raise Unable(f"{program}: {why.strerror}") from why
    if ended.status != 0:
        raise Unable(f"{program} {' '.join(words)}: {process.ending(ended)}")


def enter(name):
    """Moves the thread that calls it into a namespace."""
    handle = os.open(os.path.join(FOLDER, name), os.O_RDONLY)
    if ctypes.CDLL(None, use_errno=True).setns(handle, NEW_NETWORK):
        raise OSError(ctypes.get_errno(), f"cannot enter the namespace {name}")
    os.close(handle)


def die_with_parent():
    """Has this process end when the one that made it does."""
    ctypes.CDLL(None).prctl(DIES_WITH_PARENT, signal.SIGKILL)


class Machine:
    """A network namespace with a link to a switch, and an address; what comes and goes may take some seconds more."""

    def __init__(self, switch, host, number, seconds=0):
        self.switch, self.host, self.name = switch, host, switch.add()
        self.port, self.carrier = f"port{next(_numbers)}", None
        if seconds:
            self.carrier = carry((self.name, "eth0"), (switch.name, self.port), seconds)
        else:
            ip("-n", switch.name, "link", "add", self.port, "type", "veth", "peer", "name", "eth0", "netns", self.name)
        # Whoever has an address has its number too, so that nobody has to learn a new one.
        ip("-n", self.name, "link", "set", "eth0", "address", f"02:00:00:00:00:{number:02x}")
        ip("-n", switch.name, "link", "set", self.port, "master", "bridge")
        ip("-n", self.name, "address", "add", f"{host}/24", "dev", "eth0")
        for words in (("lo", "up"), ("eth0", "up")):
            ip("-n", self.name, "link", "set", *words)
        self.plug()

    def plug(self):
        ip("-n", self.switch.name, "link", "set", self.port, "up")

    def pull(self):
        ip("-n", self.switch.name, "link", "set", self.port, "down")

    def disturb(self, *how):
        """Has both ends of its link treat what they send in these ways (netem)."""
        for namespace, device in ((self.switch.name, self.port), (self.name, "eth0")):
            ip("-n", namespace, "qdisc", "add", "dev", device, "root", "netem", *how, program="tc")

    def drop(self, host, does_drop):
        """Answers nobody at this address, or does again."""
        ip("-n", self.name, "route", "add" if does_drop else "del", "blackhole", f"{host}/32")

    def words(self, *words):
        """The words that run a command on this machine."""
        return ["ip", "netns", "exec", self.name, *words]


class Switch:
    """A network namespace with a bridge, and the machines at it."""

    def __init__(self):
        self.all, self.carriers = [], []
        self.name = self.add()
        try:
            ip("-n", self.name, "link", "add", "bridge", "type", "bridge")
            ip("-n", self.name, "link", "set", "bridge", "up")
        except Unable:
            self.end()
            raise

    def add(self):
        """A new namespace."""
        name = f"nullsim-{os.getpid()}-{next(_numbers)}"
        ip("netns", "add", name)
        self.all.append(name)
        return name

    def machine(self, host, number, seconds=0):
        made = Machine(self, host, number, seconds)
        if made.carrier:
            self.carriers.append(made.carrier)
        return made

    def enter(self, host):
        """Moves this process to the switch, and gives it an address there."""
        ip("-n", self.name, "address", "add", f"{host}/24", "dev", "bridge")
        ip("-n", self.name, "link", "set", "lo", "up")
        enter(self.name)

    def end(self):
        for carrier in self.carriers:
            os.kill(carrier, signal.SIGKILL)
            os.waitpid(carrier, 0)
        for name in self.all:
            process.call(["ip", "netns", "del", name])


def tap(namespace, name):
    """A tap device of a namespace."""
    enter(namespace)
    handle = os.open("/dev/net/tun", os.O_RDWR | os.O_NONBLOCK)
    fcntl.ioctl(handle, SET_TAP, struct.pack("16sH", name.encode(), TAP | NO_HEAD))
    return handle


def carry(one, other, seconds):
    """A process that carries the frames between two devices that it makes, each so many seconds later: its number."""
    told, tells = os.pipe()
    child = os.fork()
    if child == 0:
        try:
            die_with_parent()
            taps = [tap(*one), tap(*other)]
            os.write(tells, b"1")
            forward(taps, seconds)
        finally:
            os._exit(1)
    os.close(tells)
    is_made = os.read(told, 1)
    os.close(told)
    if not is_made:
        os.waitpid(child, 0)
        raise Unable("tap devices")
    return child


def forward(taps, seconds):
    """Carries frames without an end. A frame that a device does not take, as one that is down, is lost."""
    waiting = deque()
    while True:
        left = max(0, waiting[0][0] - time.monotonic()) if waiting else None
        for handle in select.select(taps, [], [], left)[0]:
            try:
                waiting.append((time.monotonic() + seconds, taps[1 - taps.index(handle)], os.read(handle, FRAME)))
            except OSError:
                pass
        while waiting and waiting[0][0] <= time.monotonic():
            _, far, frame = waiting.popleft()
            try:
                os.write(far, frame)
            except OSError:
                pass
