"""Small schedules of one fleet, drawn from a number, and all their tours, found by walking through the minutes of each connection.

Nothing here knows how the program reckons. Minutes count from the day start of day 1. An aircraft departs, is aloft, is in its turn, and
waits until the departure that follows, minute by minute; each day start that it passes is a night. All orders of the legs are tried."""

import itertools
import random
from functools import lru_cache
from pathlib import Path
from typing import Dict, Iterator, List, NamedTuple, Optional, Sequence, Tuple

from shared import put

from fleetplan.tables import DATED
from fleetplan.times import DAY, clock

STATIONS = ("AAA", "BBB", "CCC")
# What is told of a night: for maintenance, too short for it at a station that maintains, at another station, aloft.
YES, SHORT, NO, ALOFT = "yes", "short", "no", "aloft"
# The minutes that a night for maintenance may be asked to last.
MOST_LEAST = 1440


class Leg(NamedTuple):
    """A flight: its name, from where to where, the minute of the period in which it departs, and its minutes in the air."""

    name: str
    start: str
    end: str
    departs: int
    block: int


class Night(NamedTuple):
    """A day start that an aircraft passes: where it is, a station or a flight, and what is told of the night."""

    place: str
    kind: str


class Walk(NamedTuple):
    """A connection as it is walked: its minutes from departure to departure, the stay from arrival to departure, and its nights."""

    minutes: int
    stay: int
    nights: Tuple[Night, ...]


# An order of the legs, from each of which an aircraft goes on to the next.
Order = Tuple[Leg, ...]


class Schedule:
    """A schedule: the minute of the day at which days start, the days of its period, the minutes of a turn, those that each station adds,
    which stations maintain, and the legs in the order of their table."""

    def __init__(self, number: int) -> None:
        draw = random.Random(f"tours {number}")
        self.day_start = draw.choice([0, 180, 180, draw.randrange(DAY)])
        self.period = draw.choice([1, 1, 1, 2, 2, 3])
        self.turn = draw.choice([0, 30, 30, 45, draw.randrange(200)])
        self.extra = {it: draw.choice([0, 0, 0, 10, 120]) for it in STATIONS}
        self.maintains = {it: draw.random() < chance for it, chance in zip(STATIONS, (0.95, 0.4, 0.2))}
        self.legs = _drawn_legs(draw, self.period * DAY, self.day_start)
        self.walk = lru_cache(maxsize=None)(self._walk)

    @property
    def minutes(self) -> int:
        """The minutes of the period."""
        return self.period * DAY

    @property
    def places(self) -> List[str]:
        """Where an aircraft may be as a day begins, in the order of the tables."""
        return [*STATIONS, *(it.name for it in self.legs)]

    def write(self, folder: Path) -> None:
        """Writes its tables and its plan: the one fleet flies all legs."""
        rows = []
        for it in self.legs:
            minute = (it.departs + self.day_start) % self.minutes
            rows.append((it.name, minute // DAY + 1, it.start, clock(minute), it.end, clock(minute + it.block)))
        tables: Dict[str, List[Sequence[object]]] = {
            "stations.csv": [(it, self.extra[it], YES if self.maintains[it] else NO) for it in STATIONS],
            "fleets.csv": [("F1", 100, self.turn)],
            "legs.csv": list(rows),
            "costs.csv": [(it.name, "F1", 1) for it in self.legs],
            "throughs.csv": [],
            "plan.csv": [(it.name, "F1") for it in self.legs],
        }
        put(folder, tables, legs=DATED)

    def _walk(self, leg: Leg, following: Leg) -> Walk:
        """Returns how an aircraft gets from the departure of a leg to that of another one, minute by minute, as no night were short."""
        nights = []
        minute, lands = leg.departs, leg.departs + leg.block
        ready = lands + self.turn + self.extra[leg.end]
        while minute < ready or minute % self.minutes != following.departs:
            minute += 1
            if minute % DAY == 0 and minute <= ready:
                nights.append(Night(leg.name, ALOFT))
            elif minute % DAY == 0:
                nights.append(Night(leg.end, YES if self.maintains[leg.end] else NO))
        return Walk(minute - leg.departs, minute - lands, tuple(nights))

    def stays(self) -> List[int]:
        """Returns the stays of connections with a night at a station that maintains, each once."""
        pairs = ((one, other) for one in self.legs for other in self.legs if one.end == other.start)
        walks = (self.walk(*it) for it in pairs)
        return sorted({it.stay for it in walks if any(night.kind == YES for night in it.nights)})

    def passed(self, leg: Leg, following: Leg, least: int) -> List[Night]:
        """Returns the nights of a connection, where one for maintenance wants a stay of so many minutes."""
        walk = self.walk(leg, following)
        return [Night(it.place, SHORT) if it.kind == YES and walk.stay < least else it for it in walk.nights]

    def nights(self, order: Order, least: int) -> List[Night]:
        """Returns the nights of a tour from its first departure on."""
        return [night for it in zip(order, order[1:] + order[:1]) for night in self.passed(*it, least)]

    def used(self) -> int:
        """Returns how many aircraft the fleet uses: as few periods as the legs take, each followed by one from where it lands."""
        minutes = 0
        for station in STATIONS:
            lands = [it for it in self.legs if it.end == station]
            goes = [it for it in self.legs if it.start == station]
            minutes += min(sum(self.walk(*it).minutes for it in zip(lands, those)) for those in itertools.permutations(goes))
        return minutes // self.minutes

    def tours(self) -> Iterator[Order]:
        """Yields all orders of the legs, from the first one on, that use no more aircraft than the fleet uses."""
        most = self.used() * self.minutes

        def grown(order: Order, taken: int) -> Iterator[Order]:
            if len(order) == len(self.legs):
                if order[-1].end == order[0].start and taken + self.walk(order[-1], order[0]).minutes == most:
                    yield order
                return
            for it in self.legs:
                if it not in order and it.start == order[-1].end:
                    minutes = taken + self.walk(order[-1], it).minutes
                    if minutes < most:
                        yield from grown((*order, it), minutes)

        yield from grown((self.legs[0],), 0)


def _drawn_legs(draw: random.Random, minutes: int, day_start: int) -> List[Leg]:
    """Returns legs that leave each station as often as they come there: rounds over two or three stations."""
    ends: List[Tuple[str, str]] = []
    most = draw.randint(2, 7)
    while len(ends) < most:
        stops = draw.sample(STATIONS, draw.choice([2, 2, 3]))
        stops = [STATIONS[0], *(it for it in stops if it != STATIONS[0])] if draw.random() < 0.7 else stops
        ends += zip(stops, stops[1:] + stops[:1]) if len(ends) + len(stops) <= 7 else []
        most -= len(ends) + len(stops) > 7
    grid = draw.choice([1, 5, 60, 60])
    found = []
    for number, (start, end) in enumerate(ends, 1):
        # At times a flight is in the air, lands or gets ready as a day starts.
        block = draw.choice([60, 60, 120, draw.randrange(grid, DAY, grid), draw.randrange(1, DAY)])
        departs = draw.randrange(0, minutes, grid) if draw.random() < 0.8 else -draw.choice([0, block, block + 30, block // 2])
        found.append(Leg(f"X{number}", start, end, (departs - draw.choice([0, 0, day_start])) % minutes, block))
    draw.shuffle(found)
    return found


def is_kept(nights: Sequence[Night], days: int) -> bool:
    """Returns whether of any so many nights one after another, going round, one is for maintenance."""
    told = [it.kind == YES for it in nights]
    return bool(told) and all(any(told[(at + more) % len(told)] for more in range(days)) for at in range(len(told)))


class Tail(NamedTuple):
    """A named aircraft: the nights that it has left, and where it is, or nothing."""

    name: str
    left: int
    place: str


class Start(NamedTuple):
    """A line that may begin: its number in the tour, the nights from its end on until one is for maintenance, and where its aircraft is."""

    line: int
    reach: int
    place: str


def may_take(tail: Tail, start: Start) -> bool:
    """Returns whether a start brings a tail to maintenance in time, from the place where it is."""
    return start.reach <= tail.left and tail.place in ("", start.place)


def have_choice(tails: Sequence[Tail], starts: Sequence[Start]) -> bool:
    """Returns whether there is a choice that gives each tail a start, and each start to a tail. All are tried."""
    if not tails or not starts:
        return not tails and not starts
    rest = tails[1:]
    return any(may_take(tails[0], it) and have_choice(rest, [other for other in starts if other != it]) for it in starts)


def first_choice(tails: Sequence[Tail], starts: Sequence[Start]) -> Optional[Dict[str, Start]]:
    """Returns the first of all choices, or None where there is none: by nights left and in their order, each tail takes the first start, by
    reach and in the order of the tour, that leaves the others a choice."""
    if not have_choice(tails, starts):
        return None
    found = {}
    left, free = sorted(tails, key=lambda it: it.left), sorted(starts, key=lambda it: it.reach)
    while left:
        tail, left = left[0], left[1:]
        for it in free:
            others = [other for other in free if other != it]
            if may_take(tail, it) and have_choice(left, others):
                found[tail.name], free = it, others
                break
    return found
