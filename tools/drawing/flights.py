"""What an aircraft does through a chart: departures in their order, cut into windows of flights, turns and time on the ground."""

from __future__ import annotations

from bisect import bisect_left
from dataclasses import dataclass, field
from typing import Iterator, List, Optional, Sequence, Tuple

from fleetplan.schedule import Leg
from fleetplan.times import DAY


@dataclass(frozen=True)
class Departure:
    """A flight that an aircraft flies. Its minutes count from the day start of the chart's first day."""

    leg: Leg
    fleet: str
    departs: int
    busy: int

    @property
    def lands(self) -> int:
        """The minute in which it arrives."""
        return self.departs + self.leg.block

    @property
    def ready(self) -> int:
        """The minute from which its aircraft can depart again."""
        return self.departs + self.busy

    def later(self, minutes: int) -> Departure:
        """Returns the same flight on a later day."""
        return Departure(self.leg, self.fleet, self.departs + minutes, self.busy)


class Chain:
    """Departures of one aircraft, in their order. Where it flies round, they go on for longer than any window. Beyond its ends the
    aircraft stands on the ground."""

    def __init__(self, flights: Sequence[Departure]) -> None:
        self.flights = list(flights)
        self.departs = [it.departs for it in self.flights]
        self.longest = max((it.busy for it in self.flights), default=0)

    def near(self, first: int, last: int) -> List[Departure]:
        """Returns the flights that are under way from a minute to another one, with the one before and the one behind, counted from the
        first minute."""
        low = max(0, bisect_left(self.departs, first - self.longest) - 1)
        high = bisect_left(self.departs, last) + 1
        return [it.later(-first) for it in self.flights[low:high]]


@dataclass(frozen=True)
class Ground:
    """Time on the ground at a station, between two flights that may lie outside of the window: ready until the next departure."""

    station: str
    first: int
    last: int
    before: Optional[Departure]
    after: Optional[Departure]

    @property
    def nights(self) -> int:
        """How many day starts pass."""
        return self.last // DAY - self.first // DAY

    @property
    def stay(self) -> Optional[int]:
        """The minutes from the arrival before it to the departure behind it, or None where one of them isn't known."""
        return self.after.departs - self.before.lands if self.before and self.after else None

    def is_short(self, least: int) -> bool:
        """Returns whether a night of it is too short for maintenance, which takes a stay of so many minutes at least."""
        return self.stay is not None and self.stay < least


@dataclass
class Window:
    """What an aircraft does for some minutes: the flights that are aloft or in their turn then, each with the one before and behind
    it, and the time between them. Minutes count from the window's start; a flight may begin or end outside."""

    minutes: int
    flights: List[Departure] = field(default_factory=list)
    grounds: List[Ground] = field(default_factory=list)
    before: List[Optional[Departure]] = field(default_factory=list)
    after: List[Optional[Departure]] = field(default_factory=list)

    def clip(self, first: int, last: int) -> Optional[Tuple[int, int]]:
        """Returns a span of minutes as far as it lies inside, or None."""
        first, last = max(first, 0), min(last, self.minutes)
        return (first, last) if first < last else None

    def departing(self) -> Iterator[Tuple[Departure, Optional[Departure], Optional[Departure]]]:
        """Yields the flights that depart inside, each with the one before and the one behind it."""
        for it, before, after in zip(self.flights, self.before, self.after):
            if 0 <= it.departs < self.minutes:
                yield it, before, after


def window(chain: Chain, start: int, minutes: int) -> Window:
    """Returns what a chain does in so many minutes from a start on."""
    seen, near = Window(minutes), chain.near(start, start + minutes)
    for at, it in enumerate(near):
        before = near[at - 1] if at else None
        after = near[at + 1] if at + 1 < len(near) else None
        if seen.clip(it.departs, max(it.ready, it.departs + 1)):
            seen.flights.append(it)
            seen.before.append(before)
            seen.after.append(after)
        if at == 0 and seen.clip(0, it.departs):
            seen.grounds.append(Ground(it.leg.start, 0, it.departs, None, it))
        last = after.departs if after else max(it.ready, minutes)
        if seen.clip(it.ready, last):
            seen.grounds.append(Ground(it.leg.end, it.ready, last, it, after))
    return seen


def unrolled(tour: Sequence[Departure], round_minutes: int, end: int) -> Chain:
    """Returns the departures of a tour that comes round in so many minutes: all that may be seen from 0 to an end, and one before and
    behind."""
    first = -max(it.busy for it in tour) // round_minutes - 1
    last = end // round_minutes + 1
    return Chain([it.later(turn * round_minutes) for turn in range(first, last + 1) for it in tour])


def nights(seen: Window) -> Iterator[Optional[Ground]]:
    """Yields where the aircraft is at each day start that ends a day of the window: on the ground, or None aloft or in a turn."""
    for minute in range(DAY, seen.minutes + 1, DAY):
        stands = (it for it in seen.grounds if it.first < minute <= it.last)
        yield next(stands, None)


def waits(seen: Window) -> Iterator[int]:
    """Yields the minutes beyond the needed turn before each next flight of the same day, of the flights that depart in the window."""
    for it, _, after in seen.departing():
        if after and after.departs // DAY == it.departs // DAY:
            yield after.departs - it.ready
