"""The flights of a schedule file through its weeks: those of the fleets that the tables of a folder have, by aircraft types as they stand in
the file."""

from __future__ import annotations

import os
from collections import Counter
from typing import Collection, Dict, Iterable, List, NamedTuple, Optional, Sequence, Tuple

from fleetplan.tables import HEADERS, TABLE, forms_of
from fleetplan.times import DAY
from schedule_files.costing import station_header
from schedule_files.days import OPEN, WEEK
from schedule_files.files import judged
from schedule_files.made import Made
from schedule_files.reading import Leg, Schedule

# In so many days all weeks of a rate of 2 have been seen twice.
MONTH = 4 * WEEK
# A leg departs so many days behind its date of operation at most, and one more in UTC.
LATEST = 8


class Fleet(NamedTuple):
    """A fleet of fleets.csv: its aircraft, and the minutes of its turn."""

    aircraft: int
    turn: int


class Flight(NamedTuple):
    """A leg on one of its dates: its fleet, and the minutes in UTC at which it departs and its aircraft is ready again, counted from the
    midnight that begins day 0."""

    departs: int
    ready: int
    fleet: str
    leg: Leg

    @property
    def day(self) -> int:
        """The day in UTC on which it departs."""
        return self.departs // DAY

    def later(self, days: int) -> Flight:
        """Returns the same flight by so many days later."""
        return self._replace(departs=self.departs + DAY * days, ready=self.ready + DAY * days)

    def shape(self, first: int) -> Tuple[int, str, str, int]:
        """Returns what an aircraft of the fleet has to fly, counted from a day on."""
        return self.departs - DAY * first, self.leg.origin, self.leg.destination, self.ready - self.departs


class Scope:
    """Which legs of a file are judged: those that the tables of a folder were made of, of any date, where fleets.csv has their fleet."""

    def __init__(self, folder: str) -> None:
        made = Made.read(folder)
        self.choice, self.charge, self.sums = made.choice, made.charge, made.sums
        fleets = judged(os.path.join(folder, "fleets.csv"), HEADERS["fleets.csv"], TABLE["fleets.csv"].forms)
        self.fleets = {name: Fleet(int(aircraft), int(turn)) for name, aircraft, turn in fleets}
        path = os.path.join(folder, "stations.csv")
        header = station_header(path)
        self.extras = {**made.extras, **{it[0]: int(it[1]) for it in judged(path, header, forms_of("stations.csv", header))}}

    def fleet_of(self, leg: Leg) -> Optional[str]:
        """Returns the fleet of a leg, or None where it isn't judged."""
        fleet = self.choice.fleet_of(leg.type)
        return fleet if fleet in self.fleets and not self.choice.refused(leg) else None

    def flight(self, leg: Leg, fleet: str, date: int) -> Flight:
        """Returns a leg on a date of operation."""
        departs = DAY * date + leg.departure
        busy = leg.arrival - leg.departure + self.fleets[fleet].turn + self.extras.get(leg.destination, 0)
        return Flight(departs, departs + busy, fleet, leg)


def flights_of(schedule: Schedule, scope: Scope, first: int, last: int, fleets: Optional[Collection[str]] = None) -> List[Flight]:
    """Returns the flights that depart in UTC from one day to another, of some fleets or of all, in order of departure."""
    found = []
    for leg in schedule.legs:
        fleet = scope.fleet_of(leg)
        if fleet is None or fleets is not None and fleet not in fleets:
            continue
        later = leg.departure // DAY
        for date in range(max(leg.start, leg.carrier.start, first - later), min(leg.end, leg.carrier.end, last - later) + 1):
            if leg.operates(date):
                found.append(scope.flight(leg, fleet, date))
    found.sort(key=lambda it: (it.departs, it.leg.number))
    return found


class Season(NamedTuple):
    """The first and the last day on which legs that are judged may operate. Where a period has no end the last day is one behind which all
    weeks are like earlier ones, and `is_open`."""

    first: int
    last: int
    is_open: bool


def season_of(schedules: Iterable[Schedule], scope: Scope) -> Optional[Season]:
    """Returns the season of some files, or None where they have no leg that is judged."""
    spans = [(max(it.start, it.carrier.start), min(it.end, it.carrier.end)) for own in schedules for it in own.legs if scope.fleet_of(it)]
    spans = [(first, last) for first, last in spans if first <= last]
    if not spans:
        return None
    ends = [last if last < OPEN else first + MONTH for first, last in spans]
    is_open = any(last == OPEN for _, last in spans)
    return Season(min(first for first, _ in spans), max(ends) + (MONTH if is_open else 0), is_open)


class Week:
    """The flights of seven days from a first one on, in order of departure, and by fleet."""

    def __init__(self, first: int, flights: Sequence[Flight]) -> None:
        self.first, self.flights = first, list(flights)
        shapes: Dict[str, List[Tuple[int, str, str, int]]] = {}
        for it in self.flights:
            shapes.setdefault(it.fleet, []).append(it.shape(first))
        # What the aircraft of each fleet have to fly: two weeks that are equal in it need the same.
        self.shapes = {fleet: tuple(sorted(own)) for fleet, own in shapes.items()}

    @property
    def key(self) -> Tuple[object, ...]:
        """What is equal of two weeks where they need the same aircraft."""
        return tuple(sorted(self.shapes.items()))

    def of(self, fleet: str) -> List[Flight]:
        """Returns the flights of a fleet."""
        return [it for it in self.flights if it.fleet == fleet]

    def balance(self, fleet: str) -> Dict[str, int]:
        """Returns the arrivals less departures of a fleet at each station where they differ."""
        net: Counter[str] = Counter()
        for _, origin, destination, _ in self.shapes.get(fleet, ()):
            net[origin] -= 1
            net[destination] += 1
        return {station: count for station, count in sorted(net.items()) if count}


class Weeks:
    """The flights of a file in weeks: `first` is the first day of week 0, and each has its number."""

    def __init__(self, schedule: Schedule, scope: Scope, first: int, numbers: range) -> None:
        self.schedule, self.scope, self.first, self.numbers = schedule, scope, first, numbers
        own: Dict[int, List[Flight]] = {it: [] for it in numbers}
        for it in flights_of(schedule, scope, self.day(numbers.start), self.day(numbers.stop) - 1):
            own[(it.day - first) // WEEK].append(it)
        self.own = {number: Week(self.day(number), flights) for number, flights in own.items()}

    def day(self, number: int) -> int:
        """Returns the first day of a week."""
        return self.first + WEEK * number

    def __getitem__(self, number: int) -> Week:
        return self.own[number]
