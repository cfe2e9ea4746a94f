"""What became of each flow of a SPEC, over all its sources: the program's own counts and delays, put together."""

import csv
import io

from networks import errors, program, units

COUNTS = ("sent", "delivered", "refused", "dropped", "discarded", "under_way", "octets", "answered")
PERCENTILES = {"delay_50": 50, "delay_90": 90, "delay_99": 99}
DELAYS = ("least_delay", *PERCENTILES, "greatest_delay", "mean_delay")
COLUMNS = ("flow", "kind", "from", "to", "sources", *COUNTS, *DELAYS, "delays_rounded", "mean_round_trip")
# What people read of it.
SHOWN = ("flow", "kind", "from", "to", "sources", "sent", "delivered", "dropped", "lost", "octets", *DELAYS)


def check_same(network, rows, place):
    """Refuses a topology whose sources are not those that are made of the SPEC."""
    if len(rows) != len(network.sources):
        raise errors.Refused(place, f"it has {len(rows):,} sources, and what `network make` makes of the SPEC has "
                                    f"{len(network.sources):,}: make it again")
    for row, source in zip(rows, network.sources):
        held = (row["kind"], row["node"], int(row["sent"]))
        made = (source.kind, network.nodes[source.node].name, source.count)
        if held != made:
            raise errors.Refused(place, f"source {row['source']} is {held[0]} of {held[1]} and sent {held[2]:,} "
                                        f"packets; of the SPEC it is {made[0]} of {made[1]} with {made[2]:,}: make it "
                                        "again")


def percentile(spread, share):
    """By nearest rank, of [(delay, packets)] by rising delays."""
    rank = -(-share * sum(count for _, count in spread) // 100)
    for delay, count in spread:
        rank -= count
        if rank <= 0:
            return delay
    return 0


def mean(rows, key, count_key):
    """The mean of means, each of which is rounded down."""
    count = sum(int(row[count_key]) for row in rows)
    return sum(int(row[key]) * int(row[count_key]) for row in rows) // count if count else 0


def flow_row(flow, rows, spread, scale):
    """The row of a flow: of its sources' rows, and of how their delays are spread."""
    made = {"flow": flow.name, "kind": flow.kind, "from": flow.one, "to": flow.other, "sources": len(rows)}
    made.update({key: sum(int(row[key]) for row in rows) for key in COUNTS})
    made["octets"] *= scale
    some = [row for row in rows if int(row["delivered"])]
    made["least_delay"] = min((int(row["least_delay"]) for row in some), default=0)
    made["greatest_delay"] = max((int(row["greatest_delay"]) for row in some), default=0)
    made["mean_delay"] = mean(rows, "mean_delay", "delivered")
    ranges = sorted(spread)
    delays = [(low, count) for low, _, count in ranges]
    made.update({key: percentile(delays, share) for key, share in PERCENTILES.items()})
    made["delays_rounded"] = int(any(low != high for low, high, _ in ranges))
    made["mean_round_trip"] = mean(rows, "mean_round_trip", "answered")
    return made


def table(network, scale, topology, sources, delays):
    """A row for each flow of a SPEC, in its order: of the rows of sources and of their delays that the program prints
    of a topology."""
    check_same(network, sources, topology)
    spreads = {}
    for row in delays:
        spreads.setdefault(row["source"], []).append(
            (int(row["from_nanoseconds"]), int(row["to_nanoseconds"]), int(row["packets"])))
    of_flow = {}
    for row, source in zip(sources, network.sources):
        flow = source.flow
        of_flow.setdefault((flow.table, flow.one, flow.other), (flow, []))[1].append(row)
    return [flow_row(flow, some, [it for row in some for it in spreads.get(row["source"], ())], scale)
            for flow, some in of_flow.values()]


def of_file(network, scale, topology, asked=None):
    """The same of a topology in a file, which the program runs twice."""
    nullsim = program.found(asked)
    return table(network, scale, topology, program.rows(nullsim, topology, "report", "csv", "delays"),
                 program.rows(nullsim, topology, "report", "delays"))


def csv_text(rows):
    """The table as comma-separated values."""
    text = io.StringIO()
    writer = csv.DictWriter(text, COLUMNS, lineterminator="\n")
    writer.writeheader()
    writer.writerows(rows)
    return text.getvalue()


def people_text(rows):
    """The table for people. `~` stands before percentiles that are rounded down."""
    lines = [[key.replace("_", " ") for key in SHOWN]]
    for row in rows:
        row = {**row, "lost": row["refused"] + row["discarded"]}
        mark = "~" if row["delays_rounded"] else ""
        cells = []
        for key in SHOWN:
            cell = units.time_said(row[key]) if key in DELAYS else row[key]
            cell = f"{cell:,}" if isinstance(cell, int) else cell
            cells.append(mark + cell if key in PERCENTILES else cell)
        lines.append(cells)
    return "\n".join(units.aligned(lines)) + "\n"
