"""What a scenario made of its base: costs, bounds, aircraft, and legs that change their fleet."""

from __future__ import annotations

from typing import Callable, Dict, Iterable, NamedTuple, Optional, Sequence, Tuple

# Of each flight of a plan its fleet, or `-`.
Fleets = Dict[str, str]
# How a number is written.
Written = Callable[[int], str]


class Interval(NamedTuple):
    """Where a number lies: not below `low` and not above `high`, each None where that isn't known."""

    low: Optional[int]
    high: Optional[int]

    def __sub__(self, other: Interval) -> Interval:
        """Where the difference of two numbers lies: from the least one less the greatest other to the greatest less the least."""
        low = None if self.low is None or other.high is None else self.low - other.high
        high = None if self.high is None or other.low is None else self.high - other.low
        return Interval(low, high)

    def times(self, factor: int) -> Interval:
        """Where the number lies that is so many times as great, 0 or more."""
        return Interval(*(None if it is None else factor * it for it in self))

    def plus(self, other: Interval) -> Interval:
        """Where the sum of two numbers lies."""
        ends = [None if one is None or more is None else one + more for one, more in zip(self, other)]
        return Interval(*ends)

    @property
    def number(self) -> Optional[int]:
        """The number, where it is known."""
        return self.low if self.low == self.high else None

    def told(self, written: Written = str) -> str:
        """Returns the number, or where it lies; nothing where that isn't known."""
        if self.low is None or self.high is None:
            at = "" if self.low is None and self.high is None else "at most " if self.low is None else "at least "
            return at + "".join(written(it) for it in self if it is not None)
        return written(self.low) if self.low == self.high else f"{written(self.low)} to {written(self.high)}"


NOTHING = Interval(0, 0)


def summed(parts: Iterable[Tuple[int, Interval]]) -> Interval:
    """Returns where the sum of numbers lies, each times a factor."""
    total = NOTHING
    for factor, it in parts:
        total = total.plus(it.times(factor))
    return total


def refleeted(here: Fleets, there: Fleets) -> int:
    """Returns how many flights of two plans have another fleet, or none, in one than in the other. A flight of one alone isn't counted."""
    return sum(fleet != there[flight] for flight, fleet in here.items() if flight in there)


def without_tour(fleets: Sequence[str], told: Sequence[str]) -> str:
    """Returns the fleets whose flights no tour flies, by what became of each rotation."""
    return " ".join(fleet for fleet, it in zip(fleets, told) if it != "unused" and not it.startswith("tour "))
