"""Flows whose packets are drawn, listed or recorded: what is planned of each before addresses are given, and its
packets."""

import itertools
from dataclasses import dataclass
from fractions import Fraction

from networks import errors, limits, recorded, trains, units
from networks.chance import stream

# Chance for the packets of flows without a seed of their own does not depend on what else is drawn.
PACKETS_SEED = 0x5061636B657473
# Octets of data where a flow does not say it.
SIZE = 1000


@dataclass
class Plan:
    """A flow between two nodes: its table of keys, the number of that in the SPEC and its own one of those that the
    table makes, when it begins and ends. A recorded one has its packets as (time, octets or size)."""

    table: dict
    place: object
    table_number: int
    number: int
    begin: int
    end: int
    recording: object = None
    packets: object = None
    # When the first packet of the recording was taken.
    origin: int = 0
    behind_end: int = 0

    @property
    def kind(self):
        return "at" if "at" in self.table else self.table["kind"]

    @property
    def sizes(self):
        return trains.Sizes(self.table, SIZE)

    @property
    def is_capture(self):
        return self.recording is not None and self.recording.is_capture


def is_planned(table):
    """Whether the packets of a flow are drawn, listed or recorded."""
    return "at" in table or table["kind"] not in ("cbr", "echo")


def chance_of(plan, seed):
    """The chance of a flow: by its own seed, or else by the one of the SPEC. It is refused without any where it is
    needed."""
    if "seed" in plan.table:
        return stream(plan.table["seed"], plan.number)
    if seed is not None:
        return stream(seed, PACKETS_SEED, plan.table_number, plan.number)
    is_drawn = plan.kind == "poisson" or plan.kind == "onoff" and plan.table["periods"] == "exponential"
    if is_drawn or (len(plan.sizes.sizes) > 1 and plan.kind != "trace"):
        raise errors.Refused(plan.place(), "packets by chance need `seed = NUMBER` in the flow, or at the top of the "
                                           "SPEC")
    return None


def drawn(plan, seed):
    """The runs of a flow by chance, one after the other and perhaps without end."""
    table, sizes, chance = plan.table, plan.sizes, chance_of(plan, seed)
    make = trains.poisson if plan.kind == "poisson" else trains.onoff
    runs = make(table, sizes, chance, plan.begin, plan.end)
    return trains.first(runs, table["count"]) if "count" in table else runs


def listed(plan, seed):
    """The runs of a flow whose times are listed."""
    times = [at + plan.begin for at in plan.table["at"]]
    late = next((number for number, at in enumerate(times) if at >= plan.end), None)
    if late is not None:
        raise errors.Refused(plan.place("at", late), f"the packet would go at {units.time_said(times[late])}, and the "
                                                     f"run stops at {units.time_said(plan.end)}")
    return trains.listed(times, plan.sizes, chance_of(plan, seed))


def recorded_packets(plan):
    """The packets of a recorded flow that go before its end; counts the others."""
    moved = recorded.moved(plan.packets, plan.origin, plan.begin, plan.table.get("stretch", 1))
    found = list(itertools.islice(moved, plan.table.get("count")))
    kept = [(at, packet) for at, packet in found if at < plan.end]
    plan.behind_end = len(found) - len(kept)
    return kept


def runs_of(plan, seed, most):
    """The runs of a flow that is no capture: at most one more than `most`."""
    if plan.kind == "trace":
        return list(trains.grouped(recorded_packets(plan)))
    runs = listed(plan, seed) if plan.kind == "at" else drawn(plan, seed)
    found = list(itertools.islice(runs, most + 1))
    wanted = plan.table.get("count") if plan.kind != "at" else None
    count = sum(run.count for run in found)
    if wanted is not None and count < wanted and len(found) <= most:
        raise errors.Refused(plan.place("count"), f"only {count:,} packets go before the run stops at "
                                                  f"{units.time_said(plan.end)}: lower `count`, or let the run last")
    return found


def expected(plan):
    """About how many packets a flow has, where that is not known before they are drawn."""
    if plan.kind not in ("poisson", "onoff"):
        return len(plan.table["at"] if plan.kind == "at" else plan.packets)
    if "count" in plan.table:
        return plan.table["count"]
    return trains.expected(plan.kind, plan.table, plan.sizes, plan.begin, plan.end)


def mean_octets(plan):
    """The mean octets of a packet of a flow, with headers."""
    if plan.kind != "trace":
        return plan.sizes.mean()
    sizes = [len(packet) if plan.is_capture else packet + limits.HEADERS for _, packet in plan.packets]
    return Fraction(sum(sizes), max(1, len(sizes)))
