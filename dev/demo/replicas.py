"""The processes, each of which prints once a second on standard error how far it is (docs/FORMATS.md, Runs); and where
they and the proxy listen: over loopback, or in network namespaces that a bridge joins, with netem on each of their
links."""

import contextlib
import re
from collections import Counter

from dev.lib import here, machines, nodes

# The words of the line `safe S events E records R messages M nulls N connections C broken B resent R`.
WORDS = ("safe", "events", "records", "messages", "nulls", "connections", "broken", "resent")
NETEM = ["delay", "5ms", "loss", "2%"]
# The address of the proxy, and of the process with a number; and the port of each.
SWITCH, HOST, PORT = "10.77.0.1", "10.77.0.{}", 7000


class Loopback:
    """All at 127.0.0.1, at ports of no other, so that a process which is begun again finds its own."""
    title = "over loopback"
    max_seconds = 60
    proxy_host = nodes.HOST

    def __init__(self, keys):
        self.addresses = {key: (self.proxy_host, nodes.free_port()) for key in keys}

    def enter(self, key):
        """What a child does to be in its network."""

    def resent_segments(self, replicas):
        return None

    def close(self):
        pass


class Namespaces:
    """Each process in a network namespace, and the proxy in that of the bridge. Nothing is changed outside of them;
    machines.Unable where the system does not allow it."""
    proxy_host = SWITCH
    # What is lost is sent again after some tenths of a second.
    max_seconds = 120

    def __init__(self, keys, has_netem):
        self.title = "in namespaces, " + ("5 ms, 2 % lost" if has_netem else "no netem")
        self.switch, self.machines, self.addresses = machines.Switch(), {}, {}
        try:
            for number, key in enumerate(keys, 10):
                self.machines[key] = self.switch.machine(HOST.format(number), number)
                self.addresses[key] = self.machines[key].host, PORT
                if has_netem:
                    self.machines[key].disturb(*NETEM)
            self.switch.enter(SWITCH)
        except (machines.Unable, OSError):
            self.close()
            raise

    def enter(self, key):
        machines.enter(self.machines[key].name)

    def resent_segments(self, replicas):
        """How many TCP segments the systems of all processes sent again, as far as they still run."""
        total = 0
        for replica in replicas:
            with contextlib.suppress(OSError, ValueError):
                text = here.read(f"/proc/{replica.child.pid}/net/snmp")
                names, values = [line.split() for line in text.splitlines() if line.startswith("Tcp:")]
                total += int(values[names.index("RetransSegs")])
        return total

    def close(self):
        """Removes them."""
        self.switch.end()


def figures(lines):
    """What lines of standard error have last, by their words: lines `safe S events E ..`, and the row of the table."""
    found, head = {}, []
    for words in map(str.split, lines):
        pairs = zip(words[::2], words[1::2]) if words[:1] == ["safe"] else zip(head, words)
        # Others may come with a later program.
        found.update((word, int(value)) for word, value in pairs if word in WORDS and value.isdecimal())
        head = words if words[:2] == ["partition", "replica"] else []
    return found


class Replica(nodes.Node):
    """One replica of a partition as a process, perhaps begun again: it ends when this process does."""

    def __init__(self, network, key, folder, ports, places):
        self.places = places
        # What the process printed, and what those before it counted.
        self.figures, self.before = {}, Counter()
        super().__init__(network, key, folder, ports, further=("stats", "keep"))

    def prepare(self):
        """What a child does before it becomes the program."""
        machines.die_with_parent()
        self.places.enter(self.key)

    def begin(self):
        self.before.update(self.figures)
        super().begin()
        self.figures = {}

    def lines(self):
        """The whole lines that it printed on standard error."""
        return self.said().decode(errors="replace").split("\n")[:-1]

    def look(self):
        """Reads what the program printed. Its last line a second may be older than its end; then all is simulated."""
        has_ended = self.status() == 0
        self.figures = figures(self.lines())
        if has_ended:
            # Lines `iface NAME records N octets M`.
            counts = re.findall(r"^iface \S+ records (\d+)", here.octets(self.out).decode(), re.M)
            self.figures.update(safe=self.network.stop, records=sum(map(int, counts)))

    def safe(self):
        """Its safe time in nanoseconds, as far as the process that runs has printed it."""
        return self.figures.get("safe", 0)

    def share(self):
        """How much of the simulated time is safe, in percent."""
        return 100 * self.safe() // self.network.stop

    def total(self, word):
        """What the process that runs, and one that was killed before it, counted."""
        return self.before[word] + self.figures.get(word, 0)

    def status(self):
        return self.child.poll()

    def fault(self):
        """The line that names a fault, if there is one."""
        return next((line for line in self.lines() if line.startswith("nullsim:")), "")
