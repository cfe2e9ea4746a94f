"""The sources of flows whose packets are drawn, listed or recorded: bursts as cbr sources where that is exact and
short, or else raw packets, as many as fit into a text."""

import itertools

from networks import datagrams, limits, plans, rooms, scaling, trains
from networks.topology import Source
from networks.paths import Ways


def is_short(runs, count, share):
    """Whether cbr sources are the shorter form: of two packets each in the mean, within the flow's share of sources."""
    return 2 * len(runs) <= count and len(runs) <= share and all(run.interval <= limits.INTERVAL[1] for run in runs)


class Forming:
    """Makes the sources of the plans of a network, in order."""

    def __init__(self, spec, network, room):
        self.spec, self.network, self.room = spec, network, room
        self.ways = Ways(network)
        # Identifications count on for each node that sends, as its own packets do.
        self.sent = [0] * len(network.nodes)
        # No flow may have more bursts than its share of the sources.
        self.share = room.sources // max(1, sum(source.plan is not None for source in network.sources))
        self.lines = []

    def all(self):
        """Puts the sources of each plan in its place."""
        made = []
        for source in self.network.sources:
            made += [source] if source.plan is None else self.sources(source)
        self.network.sources = made
        return self.lines

    def sources(self, model):
        """The sources of a plan."""
        plan, scale = model.plan, self.spec.scale
        if plan.is_capture:
            packets = plans.recorded_packets(plan)
            # A capture may be many times what a text holds.
            if sum(2 * len(packet) for _, packet in packets) > self.room.letters:
                raise rooms.refused(self.room, plan, scale, len(packets))
            return self.said(model, "raw", self.raw(model, self.captured(model, packets), len(packets)))
        least = limits.HEADERS if plan.kind == "trace" else (min(plan.sizes.sizes) + limits.HEADERS) // scale
        most = self.room.packets(least)
        runs = plans.runs_of(plan, self.spec.seed, max(most, self.share))
        if scale > 1:
            key = "file" if plan.kind == "trace" else "size"
            runs = [run._replace(size=scaling.size(run.size, scale, plan.place, key)) for run in runs]
        count = sum(run.count for run in runs)
        if is_short(runs, count, self.share):
            return self.said(model, "cbr", self.bursts(model, runs))
        if count > most:
            raise rooms.refused(self.room, plan, scale, count)
        return self.said(model, "raw", self.raw(model, self.datagrams(model, runs), count))

    def said(self, model, form, sources):
        """Says what form a flow took, and takes the room of its sources."""
        plan, count = model.plan, sum(source.count for source in sources)
        if not self.room.take(sources):
            raise rooms.refused(self.room, plan, self.spec.scale, count)
        # What was left out of a file is said once, with its first flow.
        is_first = plan.recording and not plan.number
        left = [f"{number:,} {why}" for why, number in plan.recording.left.items()] if is_first else []
        left += [f"{plan.behind_end:,} behind its end"] if plan.behind_end else []
        self.lines.append(f"{model.flow.said()}: {count:,} packets as {len(sources):,} {form} source"
                          f"{'' if len(sources) == 1 else 's'}{'; left out: ' if left else ''}{', '.join(left)}")
        return sources

    def bursts(self, model, runs):
        """A cbr source for each run."""
        return [Source("cbr", model.node, model.to, model.sport, model.dport, size=run.size, start=run.at,
                       interval=run.interval, count=run.count, ttl=model.ttl, fill=model.fill, flow=model.flow)
                for run in runs]

    def via(self, model):
        """The interface by which packets of a flow leave."""
        return self.ways.via(model.node, model.to)

    def datagrams(self, model, runs):
        """The datagrams of some runs."""
        address = self.network.ifaces[self.via(model)].address
        make = datagrams.Datagrams(address, model.to, model.sport, model.dport, model.ttl, model.fill)
        for number, (at, size) in enumerate(trains.packets(runs), self.sent[model.node]):
            yield at, make.made(size, number % 65_536)

    def captured(self, model, packets):
        """Packets of a capture, between the nodes of a flow."""
        address = self.network.ifaces[self.via(model)].address
        for at, packet in packets:
            yield at, datagrams.readdressed(packet, address, model.to).hex()

    def raw(self, model, packets, count):
        """Raw sources with so many packets."""
        via, packets = self.via(model), iter(packets)
        found = []
        while part := list(itertools.islice(packets, limits.RAW_PACKETS)):
            found.append(Source("raw", model.node, model.to, count=len(part), via=via, packets=part, flow=model.flow))
        self.sent[model.node] += count
        return found
