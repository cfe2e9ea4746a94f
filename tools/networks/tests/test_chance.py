"""Chance: draws have the moments of their distributions, and are the same on each machine."""

import itertools
import unittest
from fractions import Fraction

from networks import chance, trains

DRAWS = 40_000


def moments(values):
    """The mean and the variance of whole numbers, rounded down."""
    count, total = len(values), sum(values)
    return total // count, (count * sum(value * value for value in values) - total * total) // count**2


def drawn(make, count=DRAWS, **table):
    """The first runs of a flow by chance."""
    held = {"size": 100, "periods": "exponential", **table}
    return list(itertools.islice(make(held, trains.Sizes(held, 0), chance.stream(11), 0, 10**18), count))


def gaps(times):
    """The time from each to the next."""
    return [behind - before for before, behind in zip(times, times[1:])]


class Draws(unittest.TestCase):
    def test_exponential_draws_have_mean_and_variance_one(self):
        some = chance.stream(7)
        values = [some.exponential() for _ in range(DRAWS)]
        # Known for the seed, and within three times their own deviations of 1 (1/200 and 1/70).
        thousandths = [value * 1000 >> 64 for value in values]
        mean, variance = moments(thousandths)
        self.assertLess(abs(mean - 1000), 3 * 1000 / 200)
        self.assertLess(abs(variance - 10**6), 3 * 10**6 / 70)
        self.assertEqual((mean, variance), EXPONENTIAL)
        # The share of those above 1, 2 and 3 is e^-1, e^-2 and e^-3, within three deviations.
        for above, share in ((1, 0.36788), (2, 0.13534), (3, 0.04979)):
            found = sum(value > above * chance.ONE for value in values) / DRAWS
            self.assertLess(abs(found - share), 3 * (share * (1 - share) / DRAWS) ** 0.5)

    def test_the_first_draws_are_known(self):
        some = chance.stream(1)
        self.assertEqual([some.exponential() for _ in range(4)], FIRST)

    def test_bits_are_those_of_splitmix64(self):
        # The first five that its published program prints for the seed 1234567.
        some = chance.Chance(1234567)
        self.assertEqual([some.bits() for _ in range(5)], [
            6457827717110365317, 3203168211198807973, 9817491932198370423, 4593380528125082431, 16408922859458223821])

    def test_streams_differ(self):
        firsts = {chance.stream(*numbers).bits() for numbers in ((), (0,), (1,), (0, 0), (0, 1), (1, 0))}
        self.assertEqual(len(firsts), 6)


class Trains(unittest.TestCase):
    def test_gaps_of_a_poisson_process_are_exponential(self):
        runs = drawn(trains.poisson, packet_rate=1000)
        mean, variance = moments(gaps([0, *(run.at for run in runs)]))
        self.assertLess(abs(mean - 10**6), 3 * 10**6 / 200)
        self.assertLess(abs(variance - 10**12), 3 * 10**12 / 70)
        self.assertEqual((mean, variance), POISSON)

    def test_a_rate_in_bits_counts_headers_and_the_mean_size(self):
        runs = drawn(trains.poisson, rate=8_000_000, sizes=[72, 972], weights=[3, 1])
        mean, _ = moments(gaps([run.at for run in runs]))
        # 325 octets in the mean are 325 us at 8 Mbit/s.
        self.assertLess(abs(mean - 325_000), 3 * 325_000 / 200)
        small = sum(run.size == 72 for run in runs)
        self.assertLess(abs(small - 30_000), 3 * (DRAWS * 3 / 16) ** 0.5)
        self.assertEqual((mean, small), MIXED)

    def test_times_on_and_off_are_exponential(self):
        runs = drawn(trains.onoff, 10_000, interval=10**6, on=10**7, off=3 * 10**7)
        # A burst of n packets is as often as a time on of n - 1 to n intervals: 1 / (1 - e^-0.1) = 10.5083 in the mean.
        counts = [run.count for run in runs]
        self.assertLess(abs(sum(counts) / 10_000 - 10.5083), 3 * 10 / 100)
        mean, _ = moments(gaps([run.at for run in runs]))
        self.assertLess(abs(mean - 4 * 10**7), 3 * 10**9.5 / 100)
        self.assertEqual((sum(counts), mean), ON_OFF)

    def test_fixed_times_on_and_off_are_exact(self):
        runs = drawn(trains.onoff, 3, interval=3, on=10, off=5, periods="fixed")
        self.assertEqual(runs, [(at, 3, 4, 100) for at in (0, 15, 30)])
        held = {"rate": 8 * 10**9, "sizes": [0, 2], "on": 100, "off": 0, "periods": "fixed"}
        found = list(trains.onoff(held, trains.Sizes(held, 0), chance.stream(1), 5, 105))
        # Each packet goes when the one before is over: 28 or 30 octets at 1 octet a nanosecond.
        self.assertEqual(gaps([run.at for run in found]), [run.size + 28 for run in found][:-1])

    def test_how_many_packets_are_expected(self):
        bursts = {"interval": 10**6, "on": 10**7, "off": 3 * 10**7}
        short, fixed = {**bursts, "on": 10**5}, {**bursts, "interval": 7, "periods": "fixed"}
        for make, kind, table in ((trains.poisson, "poisson", {"packet_rate": 1000}), (trains.onoff, "onoff", bursts),
                                  (trains.onoff, "onoff", short), (trains.onoff, "onoff", fixed)):
            runs = drawn(make, 10_000, **table)
            held = {"size": 100, "periods": "exponential", **table}
            end = runs[-1].at
            found, wanted = sum(run.count for run in runs), trains.expected(kind, held, trains.Sizes(held, 0), 0, end)
            self.assertLess(abs(found - wanted), found / 30, table)

    def test_packets_of_no_distance_are_a_nanosecond_apart(self):
        runs = drawn(trains.poisson, 1000, interval=Fraction(1, 100))
        self.assertEqual([run.at for run in runs], list(range(1, 1001)))

    def test_listed_packets_are_runs(self):
        packets = [(1, 5), (3, 5), (5, 5), (6, 5), (7, 5), (9, 4), (11, 4)]
        runs = list(trains.grouped(packets))
        self.assertEqual(runs, [(1, 2, 3, 5), (6, 1, 2, 5), (9, 2, 2, 4)])
        self.assertEqual(list(trains.packets(runs)), packets)
        self.assertEqual(list(trains.packets(trains.first(runs, 4))), packets[:4])
        self.assertEqual(list(trains.grouped([])), [])


# What came out when these tests were written, each beside what theory says of it.
EXPONENTIAL = (996, 1012296)
FIRST = [1254810298945464860, 48296360766856833681, 5571547542709259596, 636942691153878441]
POISSON = (1005082, 1005721361837)
MIXED = (326332, 29861)
ON_OFF = (105682, 40112897)
