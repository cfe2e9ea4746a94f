"""Means of independent runs, and the interval in which the true mean is with a given confidence (Student's t)."""

import functools
import math
import statistics
from collections.abc import Sequence
from dataclasses import dataclass

# How near a quantile is found, as a share of it.
NEAR = 1e-12


@dataclass(frozen=True, slots=True)
class Interval:
    """The mean of some values, and the ends of its interval, which are None of one value."""

    runs: int
    mean: float
    low: float | None
    high: float | None

    def has(self, value: float) -> bool:
        """Whether a value is within the interval, its ends included."""
        return self.low is not None and self.low <= value <= self.high


def within(bound: float, freedom: int) -> float:
    """How probable it is that Student's t with so many degrees of freedom is between -bound and bound (Abramowitz and
    Stegun, 26.7.3 and 26.7.4, which end)."""
    angle = math.atan(bound / math.sqrt(freedom))
    sine, square = math.sin(angle), math.cos(angle) ** 2
    is_odd = freedom % 2
    term = math.cos(angle) if is_odd else 1.0
    total = 0.0
    for number in range(1 + is_odd, freedom, 2):
        total += term
        term *= square * number / (number + 1)
    return 2 / math.pi * (angle + sine * total) if is_odd else sine * total


@functools.lru_cache(maxsize=None)
def student(freedom: int, confidence: float) -> float:
    """The bound that Student's t with so many degrees of freedom is between with this confidence."""
    low, high = 0.0, 2.0
    while within(high, freedom) < confidence:
        low, high = high, 2 * high
    while high - low > NEAR * high:
        middle = (low + high) / 2
        low, high = (middle, high) if within(middle, freedom) < confidence else (low, middle)
    return high


def interval(values: Sequence[float], confidence: float = 0.95) -> Interval:
    """The mean of values of independent runs, and its interval."""
    mean = statistics.fmean(values)
    if len(values) < 2:
        return Interval(len(values), mean, None, None)
    half = student(len(values) - 1, confidence) * statistics.stdev(values) / math.sqrt(len(values))
    return Interval(len(values), mean, mean - half, mean + half)
