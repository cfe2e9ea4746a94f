"""The times and sizes of packets that are drawn by chance or listed, as runs: packets of one size at one distance."""

from collections import namedtuple
from fractions import Fraction

from networks import limits
from networks.chance import ONE

# `count` packets with `size` octets of data, from the time `at` on, each `interval` nanoseconds after the one before.
Run = namedtuple("Run", "at interval count size")


class Sizes:
    """The octets of data of each packet: one number, or drawn from a list with weights."""

    def __init__(self, table, usual):
        self.sizes = table.get("sizes") or [table.get("size", usual)]
        self.weights = table.get("weights") or [1] * len(self.sizes)
        self.drawn = [size for size, weight in zip(self.sizes, self.weights) for _ in range(weight)]

    def next(self, chance):
        """The size of the next packet."""
        return self.sizes[0] if len(self.sizes) == 1 else self.drawn[chance.below(len(self.drawn))]

    def mean(self):
        """The mean number of octets of a packet, with its headers."""
        return Fraction(sum(self.drawn), len(self.drawn)) + limits.HEADERS


def gap(table, octets):
    """The exact time from one packet to the next, in nanoseconds: said, or by a rate for packets of so many octets."""
    if "interval" in table:
        return Fraction(table["interval"])
    if "packet_rate" in table:
        return Fraction(10**9, table["packet_rate"])
    return Fraction(octets * 8 * 10**9) / table["rate"]


def rounded(time):
    """An exact time as whole nanoseconds, at least one: a raw source has no two packets at one time."""
    return max(1, (2 * time.numerator + time.denominator) // (2 * time.denominator))


def exponential(chance, mean):
    """A draw of the exponential distribution, as whole nanoseconds. The draw and the mean are exact, and so each
    machine rounds to the same."""
    divisor = mean.denominator * ONE
    return (chance.exponential() * mean.numerator + divisor // 2) // divisor


def poisson(table, sizes, chance, begin, end):
    """A Poisson process: gaps are exponential, and at least 1 ns."""
    mean, at = gap(table, sizes.mean()), begin
    while True:
        at += max(1, exponential(chance, mean))
        if at >= end:
            return
        yield Run(at, 1, 1, sizes.next(chance))


def onoff(table, sizes, chance, begin, end):
    """Bursts at the peak rate: each lasts an on time, and an off time is behind it."""
    is_fixed, at = table["periods"] == "fixed", begin
    while at < end:
        on, off = (table[key] if is_fixed else exponential(chance, Fraction(table[key])) for key in ("on", "off"))
        yield from burst(table, sizes, chance, at, min(at + on, end))
        at += max(1, on + off)


def burst(table, sizes, chance, at, end):
    """The packets of an on time: at its begin, and as long as the next one begins within it."""
    if len(sizes.sizes) == 1:
        interval = rounded(gap(table, sizes.mean()))
        if at < end:
            yield Run(at, interval, (end - at - 1) // interval + 1, sizes.sizes[0])
        return
    while at < end:
        size = sizes.next(chance)
        yield Run(at, 1, 1, size)
        at += rounded(gap(table, size + limits.HEADERS))


def listed(times, sizes, chance):
    """A packet at each time."""
    return grouped((at, sizes.next(chance)) for at in times)


def grouped(packets):
    """Times, which rise, with sizes as runs: each is as long as it can be."""
    run = None
    for at, size in packets:
        if run and run.size == size and (run.count == 1 or at == run.at + run.count * run.interval):
            run = Run(run.at, at - run.at if run.count == 1 else run.interval, run.count + 1, size)
        else:
            if run:
                yield run
            run = Run(at, 1, 1, size)
    if run:
        yield run


def packets(runs):
    """The time and the size of each packet of some runs."""
    for run in runs:
        for number in range(run.count):
            yield run.at + number * run.interval, run.size


def first(runs, count):
    """The runs as far as they have so many packets."""
    for run in runs:
        if run.count >= count:
            yield run._replace(count=count)
            return
        count -= run.count
        yield run


def expected(kind, table, sizes, begin, end):
    """How many packets there will be in the mean, about."""
    usual = gap(table, sizes.mean())
    if kind == "poisson":
        return int((end - begin) / usual)
    # A burst has its first packet however short it is; times that are drawn end half an interval behind the last one.
    each = Fraction(table["on"]) / usual
    each = -(-each // 1) if table["periods"] == "fixed" else max(1, each + Fraction(1, 2))
    return int((end - begin) * each / (table["on"] + table["off"]))
