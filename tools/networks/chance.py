"""Numbers by chance from a seed, the same with each version of Python (SplitMix64: Steele, Lea and Flood, 2014).

All is done in whole numbers. `random` draws otherwise in other versions, and the last bit of `math.log` depends on the
C library: a time that is rounded from it could be another nanosecond on another machine."""

ALL = 2**64 - 1
# 1 as a number of 64 binary places, in which uniform and exponential draws are.
ONE = 2**64
# The logarithm of 2 in such places, rounded down.
LN_2 = 0xB17217F7D1CF79AB


def partial_sums():
    """For each k the sum of ln(2)^i / i! over i from 1 to k, which goes to 1; the last one is 1, so that each draw is
    below it."""
    sums, term, past = [0, LN_2], LN_2, 2
    while term:
        term = term * LN_2 // (past << 64)
        sums.append(sums[-1] + term)
        past += 1
    return [*sums, ONE]


SUMS = partial_sums()


class Chance:
    """Gives numbers that the seed alone decides."""

    def __init__(self, seed):
        self.state = seed & ALL

    def bits(self):
        """A number of 64 bits."""
        self.state = (self.state + 0x9E3779B97F4A7C15) & ALL
        mixed = self.state
        mixed = ((mixed ^ (mixed >> 30)) * 0xBF58476D1CE4E5B9) & ALL
        mixed = ((mixed ^ (mixed >> 27)) * 0x94D049BB133111EB) & ALL
        return mixed ^ (mixed >> 31)

    def below(self, most):
        """A number from 0 up to, and without, `most`: each about as often."""
        return self.bits() * most >> 64

    def exponential(self):
        """A draw of the exponential distribution of mean 1, in 64 binary places (algorithm S in Knuth, The Art of
        Computer Programming, 3.4.1; Ahrens and Dieter, 1972)."""
        drawn = self.bits()
        # How often ln(2) passed: the ones in front. What stands behind the first zero is uniform.
        passed = 64 - (ALL ^ drawn).bit_length()
        rest = drawn << passed + 1 & ALL
        if rest < LN_2:
            return passed * LN_2 + rest
        least, k = min(self.bits(), self.bits()), 2
        while rest >= SUMS[k]:
            least, k = min(least, self.bits()), k + 1
        return (passed * ONE + least) * LN_2 >> 64


def stream(*numbers):
    """The chance that these numbers alone decide: another one for each list of them."""
    chance = Chance(0)
    for number in numbers:
        chance = Chance(chance.bits() ^ number)
    return chance
