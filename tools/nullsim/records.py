"""Records of what was measured, each with typed fields, and lists of them as pandas frames or numpy arrays.

Times and delays are whole nanoseconds, octets those of IPv4 packets with their headers, rates bits per second. A
column that the program prints is a field of a record, and a word a method of `Topology` (topology.py); only `Report` of
networks/program.py reads what `report TOPO csv` prints. Tests: networks/tests/test_python.py."""

import dataclasses
from dataclasses import dataclass
from typing import Generic, TypeVar

from nullsim import faults

Record = TypeVar("Record")


class Rows(list[Record], Generic[Record]):
    """A list of records of one kind, also by columns."""

    def __init__(self, kind: type, members=()):
        super().__init__(members)
        self.kind = kind

    def columns(self) -> dict[str, list]:
        """A list for each field, by its name."""
        names = [field.name for field in dataclasses.fields(self.kind)]
        return {name: [getattr(record, name) for record in self] for name in names}

    def frame(self):
        """A pandas frame with a column for each field (Debian: python3-pandas)."""
        return module("pandas").DataFrame(self.columns())

    def arrays(self) -> dict:
        """A numpy array for each field, by its name (Debian: python3-numpy)."""
        numpy = module("numpy")
        return {name: numpy.array(column) for name, column in self.columns().items()}


def module(name: str):
    """A package that need not be there."""
    try:
        return __import__(name)
    except ImportError:
        raise faults.Lacking(faults.LACKING, "", f"this needs the package {name}: in Debian `apt-get install "
                                                 f"python3-{name}`; without it, a list of records is there") from None


@dataclass(frozen=True, slots=True)
class Progress:
    """How far a run is: percent of the simulated time; packets over a link, each second in the mean; seconds that are
    left, or None where that is not known."""

    percent: int
    packet_hops: int | None = None
    seconds_left: int | None = None


@dataclass(frozen=True)
class Passed:
    """What passed an interface: packets and octets that arrived and that began to leave; packets that found its queue
    full; the most that waited at one time, without the one under way."""

    packets_in: int
    octets_in: int
    packets_out: int
    octets_out: int
    dropped: int
    longest_queue: int


@dataclass(frozen=True)
class Named:
    """The name of an interface."""

    name: str


@dataclass(frozen=True)
class Interface(Passed, Named):
    """What passed an interface in the whole run, and how long it transmitted (ns)."""

    busy_nanoseconds: int


@dataclass(frozen=True, slots=True)
class Counter:
    """How many packets a node counted under a name (docs/RULES.md)."""

    node: str
    counter: str
    packets: int


@dataclass(frozen=True)
class Fates:
    """What became of packets: how many were sent, and ended in each way; octets of those delivered."""

    sent: int
    delivered: int
    refused: int
    dropped: int
    discarded: int
    under_way: int
    octets: int


@dataclass(frozen=True)
class SourceName:
    """A source by its number, its kind, its node, and the address to which it sends."""

    source: int
    kind: str
    node: str
    to: str


@dataclass(frozen=True)
class Source(Fates, SourceName):
    """What became of a source's packets; delays and round trips in nanoseconds, by nearest rank."""

    rate: int
    least_delay: int
    delay_50: int
    delay_90: int
    delay_99: int
    delay_99_9: int
    greatest_delay: int
    mean_delay: int
    jitter: int
    delays_rounded: int
    answered: int
    astray: int
    least_round_trip: int
    round_trip_50: int
    round_trip_90: int
    round_trip_99: int
    round_trip_99_9: int
    greatest_round_trip: int
    mean_round_trip: int
    round_trip_jitter: int
    round_trips_rounded: int


@dataclass(frozen=True)
class FlowName:
    """A flow of a SPEC between two nodes, and how many sources it has."""

    flow: str
    kind: str
    from_: str
    to: str
    sources: int


@dataclass(frozen=True)
class Flow(Fates, FlowName):
    """What became of the packets of a flow, over all its sources (docs/NETWORKS.md)."""

    answered: int
    least_delay: int
    delay_50: int
    delay_90: int
    delay_99: int
    greatest_delay: int
    mean_delay: int
    delays_rounded: int
    mean_round_trip: int


@dataclass(frozen=True, slots=True)
class Delay:
    """How many packets of a source were delivered with a delay in a range (ns), both ends included."""

    source: int
    from_nanoseconds: int
    to_nanoseconds: int
    packets: int


@dataclass(frozen=True)
class Begin:
    """When a step of time begins, and of which interface."""

    from_nanoseconds: int
    interface: str


@dataclass(frozen=True)
class Step(Passed, Begin):
    """What an interface did in a step of time. Mean queue and use are in thousandths of a packet and of the step."""

    mean_queue_thousandths: int
    longest_queue_octets: int
    mean_queue_octets: int
    busy_thousandths: int


@dataclass(frozen=True, slots=True)
class SourceStep:
    """What became of a source's packets in a step of time."""

    from_nanoseconds: int
    source: int
    sent: int
    delivered: int
    lost: int
    octets: int
    mean_delay_nanoseconds: int
    greatest_delay_nanoseconds: int
    jitter_nanoseconds: int


@dataclass(frozen=True, slots=True)
class Arrival:
    """Where a packet was on its way: it arrived at an interface, or began to leave by it, at a time (ns)."""

    interface: str
    is_out: bool
    nanoseconds: int


@dataclass(frozen=True, slots=True)
class Packet:
    """What became of a packet: reason, place and end are None of one that was under way at the end of the run."""

    packet: int
    sent_nanoseconds: int
    outcome: str
    reason: str | None
    place: str | None
    ended_nanoseconds: int | None
    way: tuple[Arrival, ...]


@dataclass(frozen=True, slots=True)
class Trace:
    """A packet of the trace of an interface: its time (ns) and its octets, from the IPv4 header on."""

    nanoseconds: int
    octets: bytes


@dataclass(frozen=True, slots=True)
class Swept:
    """A measure over the runs of a variant: its mean, and the ends of the interval of 95 per cent (Student's t), which
    are None of one run. `values` has what was varied; `kind` and `name` say whose measure it is."""

    values: dict
    kind: str
    name: str
    measure: str
    runs: int
    mean: float
    low: float | None
    high: float | None


def typed(kind: type, row: dict) -> object:
    """A record of a row of texts or numbers. Columns that the record has no field of are passed over: lines of the
    program may grow."""
    made = {}
    for field in dataclasses.fields(kind):
        value = row[field.name.rstrip("_")]
        made[field.name] = field.type(value) if field.type in (int, str) else value
    return kind(**made)
