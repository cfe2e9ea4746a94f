"""Formulas of queues in closed form. Times are in services: a packet takes 1 to be transmitted. A load is how many
packets come in a service in the mean."""

import math
from fractions import Fraction


def wait_with_one_service(load):
    """The mean wait in M/D/1: Poisson arrivals, one service (Pollaczek and Khinchine)."""
    return load / (2 * (1 - load))


def loss_with_room(load, room):
    """The share of packets that M/D/1/K loses, in which `room` packets may be, the one under way among them. The number
    that a departure leaves behind is a Markov chain; how often it leaves none follows from its first states."""
    arrivals = [math.exp(-load) * load**count / math.factorial(count) for count in range(room + 1)]
    # Of each state as many as of the state 0, which is 1: the next state follows from those before it.
    states = [1.0]
    for number in range(room - 1):
        came = states[number] - states[0] * arrivals[number]
        came -= sum(states[before] * arrivals[number - before + 1] for before in range(1, number + 1))
        states.append(came / arrivals[0])
    empty = 1 / sum(states)
    return 1 - 1 / (empty + load)


def unfinished_above(sources, period, work):
    """How probable it is that more than `work` is unfinished where so many sources send a packet each in each period,
    at phases by chance (n x D/D/1: Roberts and Virtamo)."""
    total = 0.0
    for count in range(math.floor(work) + 1, sources + 1):
        share = (count - work) / period
        total += (math.comb(sources, count) * share**count * (1 - share) ** (sources - count)
                  * (period - sources + work) / (period - count + work))
    return total


def wait_with_phases(sources, period, steps=2_000):
    """The mean wait of a packet in n x D/D/1 at phases by chance: it finds the work of the other sources. Simpson's
    rule over each service, since the function has corners there."""
    others, total = sources - 1, 0.0
    parts = steps // max(1, others) // 2 * 2
    for begin in range(others):
        width = 1 / parts
        # Just within the service at both ends, where the function jumps.
        points = [min(max(begin + number * width, begin), begin + 1 - 1e-12) for number in range(parts + 1)]
        values = [unfinished_above(others, period, point) for point in points]
        inner = 4 * sum(values[1:-1:2]) + 2 * sum(values[2:-1:2])
        total += width / 3 * (values[0] + values[-1] + inner)
    return total


class Bucket:
    """A leaky bucket: no more than `burst` octets at once, and `rate` bits per second in the long run."""

    def __init__(self, burst, rate):
        self.burst, self.rate = burst, rate

    def behind(self, rate):
        """The bucket of what leaves a link of this rate, over which the flow goes alone: it may be late by a burst."""
        return Bucket(self.burst + Fraction(self.rate * self.burst, rate), self.rate)

    def shaped(self, times, octets):
        """The least times, none before its own (nanoseconds), at which packets of so many octets keep to the bucket."""
        made, level, last = [], Fraction(0), 0
        for time in times:
            time = max(time, last + 1 if made else time)
            drained = max(Fraction(0), level - Fraction(self.rate * (time - last), 8 * 10**9))
            over = drained + octets - self.burst
            if over > 0:
                time += math.ceil(over * 8 * 10**9 / self.rate)
                drained = max(Fraction(0), level - Fraction(self.rate * (time - last), 8 * 10**9))
            made.append(time)
            level, last = drained + octets, time
        return made


def backlog_bound(buckets):
    """The most octets that wait behind buckets whose rates a link carries (network calculus)."""
    return sum(bucket.burst for bucket in buckets)


def delay_bound(buckets, rate):
    """The longest that a packet is in a first-in, first-out queue behind these buckets, its own transmission included
    (nanoseconds)."""
    return Fraction(8 * 10**9, rate) * backlog_bound(buckets)
