"""The demonstration: eight processes of a campus in four partitions, one of which is killed and begun again."""

import random
import threading
import time
from collections import Counter, defaultdict

from dev.demo.replicas import Replica
from dev.lib import frames, nodes, process, proxy

KILLED = (1, 0)
KILLED_AT_SHARE = 33
AWAY_SECONDS = 1.0
TURN_SECONDS = 0.05
# A piece is held back so many seconds: the least, and what chance adds.
HELD_LEAST, HELD_MORE = 0.01, 0.03
# A connection is cut within so many seconds; a Bye is cut away with such a chance.
CUT_SECONDS, BYE_CHANCE = 1.8, 0.5
# One connection of so many begins with octets that go one at a time: at most so many.
TRICKLED_ONE_OF, TRICKLED = 4, 200


class Counts:
    """What the proxy counts: messages of each sender, sent again and lost, and connections that were cut. Processes are
    pairs (partition, replica)."""

    def __init__(self):
        self.lock = threading.Lock()
        self.messages, self.again = Counter(), Counter()
        # Connections that were cut; those of them on whose pair a Bye had come; and Byes that were lost with one.
        self.cuts = self.late = self.byes = 0
        # The numbers of the messages that a sender began to send to a receiver on a channel.
        self.sent = defaultdict(set)
        # Those that anyone sent to a receiver on a channel, and those that came whole to its present process.
        self.wanted, self.whole = defaultdict(set), defaultdict(set)

    def read(self, frame, sender, receiver):
        if frame.kind == frames.DATA:
            with self.lock:
                self.messages[sender] += 1
                numbers = self.sent[frame.channel, sender, receiver]
                self.again[sender] += frame.number in numbers
                numbers.add(frame.number)
                self.wanted[frame.channel, receiver].add(frame.number)

    def delivered(self, frame, receiver):
        if frame.kind == frames.DATA:
            with self.lock:
                self.whole[frame.channel, receiver].add(frame.number)

    def cut(self, is_late, lost):
        with self.lock:
            self.cuts += 1
            self.late += is_late
            self.byes += sum(frame.kind == frames.BYE for frame in lost)

    def forget(self, receiver):
        """The process of a receiver is another now, and holds nothing."""
        with self.lock:
            for key in self.whole:
                if key[1] == receiver:
                    self.whole[key].clear()

    def lost(self):
        """How many messages never came whole to the present process of their receiver."""
        return sum(len(numbers - self.whole[key]) for key, numbers in list(self.wanted.items()))

    def again_of(self, partition):
        """How many messages the processes of a partition sent again to the same receiver."""
        return sum(count for sender, count in list(self.again.items()) if sender[0] == partition)


def plan_of(pair, seed):
    """How the connections of a pair are carried. Of all connections over which a Bye comes only the first may be cut,
    since an end that was made twice is sure."""
    chance = random.Random(f"{seed} {pair}")

    def plan(door):
        made = proxy.Manner(held_least=HELD_LEAST, held=HELD_MORE, is_reset=bool(door.count % 2))
        if chance.randrange(TRICKLED_ONE_OF) == 0:
            made.trickled = chance.randrange(TRICKLED)
        if not door.has_bye():
            made.cut_seconds, made.cuts_bye = chance.random() * CUT_SECONDS, BYE_CHANCE
        return made
    return plan


class Run:
    """One demonstration in a folder, with its places and its seed."""

    def __init__(self, network, places, seed, folder):
        self.network, self.places, self.folder, self.seed = network, places, folder, seed
        self.names, self.counts = network.names, Counts()
        self.title = (f"a campus in {len(self.names)} partitions, 2 replicas each: "
                      f"{len(network.keys())} processes {places.title}")
        self.doors, self.processes, self.away, self.said = {}, {}, {}, []
        self.resent, self.is_over = None, False

    def say(self, text, style=""):
        self.said.append((text, style))

    def seconds(self):
        return time.monotonic() - self.begun

    def begin(self):
        """Opens the proxy, and begins all processes."""
        self.begun = time.monotonic()
        own = self.places.addresses
        self.doors = proxy.doors_of(self.network, own, lambda pair: plan_of(pair, self.seed), random.Random(self.seed),
                                    watch=self.counts, host=self.places.proxy_host)
        ports = {pair: (self.places.proxy_host, door.number) for pair, door in self.doors.items()}
        for key in own:
            reached = {other: ports.get((key, other), place) for other, place in own.items()}
            self.processes[key] = Replica(self.network, key, self.folder, reached, self.places)

    def name(self, key):
        return f"{self.names[key[0]]}, replica {key[1]}"

    def kill_and_begin_again(self):
        """Kills one process in the midst, and begins it again a little later, while all others run."""
        killed, when = self.processes[KILLED], f"{self.seconds():4.0f} s: {self.name(KILLED)} is"
        others = [other for key, other in self.processes.items() if key != KILLED]
        if killed.times_begun == 1 and not self.away and killed.share() >= KILLED_AT_SHARE:
            killed.kill()
            self.counts.forget(KILLED)
            self.check_running(others, "killed")
            self.away[KILLED] = time.monotonic()
            self.say(f"{when} killed at {killed.share()} % (SIGKILL); the {len(others)} others go on", "bad")
        elif self.away and time.monotonic() - self.away[KILLED] >= AWAY_SECONDS:
            self.away.clear()
            self.check_running(others, "begun again")
            killed.begin()
            self.say(f"{when} begun again, with nothing", "good")

    def check_running(self, others, what):
        if any(other.status() is not None for other in others):
            raise process.Failed(f"a process had ended when {self.name(KILLED)} was {what}")

    def look(self):
        """Looks at all processes: whether all have ended."""
        for key, replica in self.processes.items():
            if key in self.away:
                continue
            replica.look()
            if replica.status() not in (None, 0):
                raise process.Failed(f"{self.name(key)} ended with status {replica.status()} {replica.fault()}".strip())
        return not self.away and all(replica.status() == 0 for replica in self.processes.values())

    def until_all_ended(self, view):
        while not self.look():
            if self.seconds() > self.places.max_seconds:
                running = [key for key, replica in self.processes.items() if replica.status() is None]
                left = "; ".join(f"{self.name(key)} at {self.processes[key].share()} %" for key in running)
                raise process.Failed(f"after {self.places.max_seconds} s these had not ended: {left}")
            self.kill_and_begin_again()
            resent = self.places.resent_segments(self.processes.values())
            self.resent = resent if not self.resent else max(resent, self.resent)
            view.show(self, self.seconds())
            time.sleep(TURN_SECONDS)
        if self.processes[KILLED].times_begun != 2:
            raise process.Failed("all processes ended before one was killed")

    def verify(self):
        """Has the program verify the files of both replicas of each partition: how many it did."""
        count = 0
        for key in sorted(self.processes):
            folder, names = self.processes[key].folder, self.network.ifaces(key[0])
            ended = process.nullsim("verify", self.network.path, folder, *names)
            if ended.status or not ended.out.startswith(b"verified\n"):
                raise process.Failed(f"the files of {self.name(key)} are not verified: {process.ending(ended)}")
            count += ended.out.count(b"\niface ")
        return count

    def certify(self):
        """Has the program certify what replica 0 of each partition left, and what replica 1 did."""
        faults, _ = nodes.uncertified(self.network, self.processes, 4)
        if faults:
            raise process.Failed(faults[0])

    def check_counts(self):
        """What the proxy saw: no message was lost, some Byes were, and each connection broke several times."""
        least, lost = min(door.broken for door in self.doors.values()), self.counts.lost()
        faults = [f"the proxy read what is no frame: {it}" for door in self.doors.values() for it in door.faults]
        faults += [f"{lost} messages never came whole"] if lost else []
        faults += ["no Bye was lost"] if not self.counts.byes else []
        faults += [f"a connection broke {least} times only"] if least < 2 else []
        if faults:
            raise process.Failed(faults[0])
        return least

    def broken(self):
        """How many connections broke."""
        return sum(door.broken for door in self.doors.values())

    def last_lines(self, files, least):
        counts, total = self.counts, len(self.processes)
        again = sum(replica.times_begun - 1 for replica in self.processes.values())
        lines = [f"{total} processes ended with status 0; {again} was killed and begun again in the midst",
                 f"{self.broken():,} connections broken, {counts.cuts:,} of them cut; each of the {len(self.doors)} at "
                 f"least {least} times",
                 f"{counts.late:,} connections cut once a Bye had come; {counts.byes:,} Byes lost with them, and sent "
                 "again",
                 f"{counts.messages.total():,} messages carried, {counts.again.total():,} of them sent again, "
                 f"{counts.lost()} lost"]
        if self.resent is not None:
            lines.append(f"{self.resent:,} TCP segments sent again by the systems of the {total} namespaces")
        ifaces = len(self.network.partition_of)
        return lines + [f"{files} files of {ifaces} interfaces: each is what the one event list writes"]

    def demonstrate(self, view):
        """All of it: the lines that say what came of it."""
        try:
            self.begin()
            self.until_all_ended(view)
            self.is_over = True
            view.show(self, self.seconds(), at_once=True)
            lines = self.last_lines(self.verify(), self.check_counts())
            self.certify()
        finally:
            for door in self.doors.values():
                door.close()
            for replica in self.processes.values():
                replica.kill()
        self.say("")
        for line in lines:
            self.say(line, "good")
        view.show(self, self.seconds(), at_once=True)
        return lines
