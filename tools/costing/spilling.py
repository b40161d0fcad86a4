"""How many passengers find no seat (spill), where as many as a normal law says want one; and the mean of that by how many were carried.

Swan, W. (2002): Airline demand distributions: passenger revenue management and spill. Transportation Research E 38.
Li, M. Z. F. and Oum, T. H. (2000): Airline spill analysis, beyond the normal demand. European Journal of Operational Research 125."""

import math
from fractions import Fraction
from typing import Optional

from costing.amounts import halves_up, rounded

# Passengers are counted in thousandths.
THOUSAND = 1000
# The greatest spread over mean for which what is carried tells the mean: to 2 x seats more who want a seat are more who have one.
MOST_FACTOR = Fraction(1, 2)
_ROOT = math.sqrt(2)
_HEIGHT = 1 / math.sqrt(2 * math.pi)


def loss(z: float) -> float:
    """Returns the unit normal loss of z of 0 or more: the mean of what a standard normal variable exceeds z by."""
    return max(_HEIGHT * math.exp(-z * z / 2) - z * math.erfc(z / _ROOT) / 2, 0.0)


class Law:
    """A normal law of passengers: its mean and spread, as whole counts of a part of a passenger."""

    __slots__ = ("mean", "sd", "unit", "spread")

    def __init__(self, mean: Fraction, sd: Fraction) -> None:
        self.unit = mean.denominator * sd.denominator
        self.mean, self.sd, self.spread = mean.numerator * sd.denominator, sd.numerator * mean.denominator, float(sd)

    def spilled(self, seats: int, of: int = 1) -> int:
        """Returns the mean of max(demand - seats, 0) in thousandths of a passenger, with `seats` of `of` seats. With z = (seats - mean) / sd it is
        sd (f(z) - z (1 - F(z))): max(mean - seats, 0), which is exact, and sd times the loss of |z|, which is a float."""
        gap = seats * self.unit - self.mean * of
        over, unit = max(-gap, 0), self.unit * of
        if not self.sd:
            return halves_up(THOUSAND * over, unit)
        part, parts = (self.spread * loss(abs(gap) / (self.sd * of))).as_integer_ratio()
        return halves_up(THOUSAND * (over * parts + part * unit), unit * parts)


def spilled(mean: Fraction, sd: Fraction, seats: Fraction) -> int:
    """Returns how many passengers of a mean and a spread find no seat among some, in thousandths."""
    return Law(mean, sd).spilled(seats.numerator, seats.denominator)


def unseated(mean: Fraction, factor: Fraction, seats: Fraction) -> float:
    """Returns what the spread, which is `factor` times the mean, adds to the passengers who find no seat by the mean alone."""
    if not factor or not mean:
        return 0.0
    return float(factor * mean) * loss(abs(float((seats - mean) / (factor * mean))))


def most_carried(factor: Fraction, seats: Fraction) -> Fraction:
    """Returns how many are carried where twice as many as there are seats want one."""
    return seats - Fraction(unseated(2 * seats, factor, seats))


def mean_of(has: Fraction, factor: Fraction, seats: Fraction) -> Optional[Fraction]:
    """Returns the mean demand up to 2 x seats of which so many are carried, to a thousandth; None where no such mean is. Up to there and
    for a factor to 0.5 what is carried grows with the mean, so the mean is bisected, in halves of a thousandth."""
    if most_carried(factor, seats) < has:
        return None
    # All in parts of which there are so many in half a thousandth.
    unit = has.denominator * seats.denominator * factor.denominator
    own, most = (2 * THOUSAND * unit * it.numerator // it.denominator for it in (has, seats))
    spread = factor.numerator * unit // factor.denominator
    low, high = 0, rounded(2 * seats * THOUSAND)
    while low < high:
        middle = (low + high + 1) // 2
        half = 2 * middle - 1
        z = abs(most - half * unit) / (spread * half) if spread else 0.0
        added = float(factor) * half / (2 * THOUSAND) * loss(z) if spread else 0.0
        if (min(half * unit, most) - own) / (2 * THOUSAND * unit) <= added:
            low = middle
        else:
            high = middle - 1
    return Fraction(low, THOUSAND)
