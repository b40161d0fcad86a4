"""How many passengers find no seat, and the mean by how many were carried. The numbers are from numeric integration (scipy, mpmath)."""

from fractions import Fraction
from typing import Optional

import pytest

from costing.amounts import Writer, halves_up, written
from costing.spilling import mean_of, spilled

# Mean, spread and seats, and the thousandths of a passenger who find no seat.
SPILLS = [
    ("120", "36", "180", 714), ("150", "45", "150", 17952), ("165", "49.5", "180", 13147), ("165", "49.5", "106", 61823), ("300", "90", "106", 194499),
    ("181", "0", "180", 1000), ("180", "0", "180", 0), ("180.0005", "0", "180", 1), ("180.000499", "0", "180", 0), ("0", "0", "0", 0),
    ("12.5", "0", "0", 12500),
    # A half that the spread is too small to lift, and one that isn't one.
    ("300.0005", "1", "100", 200001), ("300.000499", "1", "100", 200000), ("0.000001", "0.000001", "1000000000000", 0),
]  # fmt: skip
# Carried, factor and seats, and the mean; None where there is no such mean.
MEANS = [
    ("144", "0.3", "180", "151.24"), ("171", "0.3", "180", "233.291"), ("178", "0.3", "180", None), ("144.0005", "0", "180", "144.001"),
    ("144.000499", "0", "180", "144"), ("0", "0.5", "1", "0"), ("179.999999", "0", "180", "180"),
]  # fmt: skip


@pytest.mark.parametrize("mean, sd, seats, wanted", SPILLS)
def test_spill(mean: str, sd: str, seats: str, wanted: int) -> None:
    """Each row has its spill."""
    assert spilled(Fraction(mean), Fraction(sd), Fraction(seats)) == wanted


def test_the_greatest_spill() -> None:
    """Without a seat a spread as great as the mean makes it sd (f(1) + F(1)), to fourteen digits."""
    most = Fraction(10**12)
    assert abs(spilled(most, most, Fraction(0)) - Fraction("1.08331547058768") * 10**15) < 20


@pytest.mark.parametrize("has, factor, seats, wanted", MEANS)
def test_mean(has: str, factor: str, seats: str, wanted: Optional[str]) -> None:
    """Each row has its mean, or none."""
    assert mean_of(Fraction(has), Fraction(factor), Fraction(seats)) == (None if wanted is None else Fraction(wanted))


def test_halves_go_up() -> None:
    """Of two whole numbers as near the greater one is taken."""
    assert [halves_up(it, 4) for it in range(9)] == [0, 0, 1, 1, 1, 1, 2, 2, 2]
    assert [halves_up(it, 2) for it in range(5)] == [0, 1, 1, 2, 2]


def test_numbers_are_written_in_full() -> None:
    """A number is written in full, and where that has no end to so many decimals."""
    assert [written(Fraction(it)) for it in ("0", "5", "1/8", "120.000001")] == ["0", "5", "0.125", "120.000001"]
    assert [Writer(3000).text(it) for it in (11_000_000, 3, 1000)] == ["3666.6667", "0.001", "0.3333"]
