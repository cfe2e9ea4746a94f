"""Sweeps: many variants of a network, each with several seeds, on all processors; means with their intervals."""

import dataclasses
import itertools
import multiprocessing
from collections.abc import Callable, Iterable, Sequence

from nullsim import faults, intervals, runs
from nullsim.network import Network
from nullsim.records import Rows, Swept
from nullsim.said import caller

# Whose measure it is, its name, and which measure it is.
Key = tuple[str, str, str]
Measures = dict[Key, float]

# What the processes of a sweep do: they are forked, so that functions need not be sent to them.
_work = None


def of_flows(network: Network) -> Measures:
    """The measures of the flows of a network (`network flows`)."""
    found = {}
    for row in network.flows():
        found.update({("flow", f"{row.flow} {row.from_} to {row.to}", measure): value
                      for measure, value in numbers(row)})
    return found


def numbers(row) -> list[tuple[str, int]]:
    """The measures of a record; the number of a source is its name."""
    return [(measure, value) for measure, value in dataclasses.asdict(row).items()
            if isinstance(value, int) and measure != "source"]


def of_report(network: Network) -> Measures:
    """The measures of the interfaces and sources of a network (`nullsim report`)."""
    report = network.report()
    rows = [("interface", row.name, row) for row in report.interfaces]
    rows += [("source", str(row.source), row) for row in report.sources]
    return {(kind, name, measure): value for kind, name, row in rows for measure, value in numbers(row)}


TABLES = {"flows": of_flows, "report": of_report}


def variants(values: dict) -> list[dict]:
    """Each choice of a value for each key, the last key's values first."""
    return [dict(zip(values, chosen)) for chosen in itertools.product(*values.values())]


def one(number: int) -> Measures:
    """What a run comes to, by its number."""
    make, table, jobs, place = _work
    values, seed = jobs[number]
    if callable(make):
        return table(make(values, seed))
    return table(make.with_values({**values, **({} if seed is None else {"seed": seed})}, place))


def each(make, table: Callable[[Network], Measures], jobs: list, processes: int, place: str) -> list[Measures]:
    """What each run comes to, so many at once."""
    global _work
    _work = make, table, jobs, place
    try:
        if processes == 1:
            return [one(number) for number in range(len(jobs))]
        with multiprocessing.get_context("fork").Pool(processes) as pool:
            return list(pool.imap(one, range(len(jobs))))
    finally:
        _work = None


def sweep(make: Network | Callable[[dict, int | None], Network], values: dict[str, Sequence],
          seeds: Iterable[int | None] = (None,), table: str | Callable[[Network], Measures] = "flows",
          measures: Sequence[str] = (), processes: int | None = None, confidence: float = 0.95,
          place: str | None = None) -> Rows[Swept]:
    """A row for each measure of each variant, with its mean over the seeds and the interval of that mean.

    `make` is a network, whose keys are given the values (`Network.with_values`) and whose `seed` is each seed; or a
    function of a table of values and a seed that gives a network. `table` is "flows", "report", or a function of a
    network that gives numbers by (kind, name, measure); of these `measures` are kept, or all. As many runs go on at
    once as there are processors, unless `processes` says it. A fault of the values is placed where this is called, or
    at `place`."""
    if isinstance(table, str) and table not in TABLES:
        raise faults.Refused(faults.REFUSED, "", f'"{table}" is no table of a sweep: there are {", ".join(TABLES)}')
    chosen, every = variants(values), list(seeds)
    jobs = [(variant, seed) for variant in chosen for seed in every]
    ends = each(make, TABLES.get(table, table), jobs, min(processes or runs.processors(), len(jobs)),
                place or caller())
    rows: list[Swept] = []
    for number, variant in enumerate(chosen):
        own = ends[number * len(every):(number + 1) * len(every)]
        for key in dict.fromkeys(key for end in own for key in end):
            if not measures or key[2] in measures:
                found = intervals.interval([end[key] for end in own if key in end], confidence)
                rows.append(Swept(variant, *key, found.runs, found.mean, found.low, found.high))
    return Rows(Swept, rows)
