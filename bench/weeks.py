#!/usr/bin/env python3
"""Writes a hub and spoke schedule of a week that differs at the weekend, always the same for a number.

usage: weeks.py FOLDER LEGS FLEETS [NUMBER [SPARE]]

On each of seven days LEGS legs are flown in tours like those of hubs.py: 140 a day make 980. From Monday, day 1, to Friday there is
one timetable. At the weekend some of its tours go, later in the day, and others in the place of the rest. Each day has a demand of
its own, so that costs differ from day to day. A flight has a number and its day, as L12D3. The hubs maintain, and every third station.
Each fleet has the aircraft with which the tours are a legal plan, as judge_reference.py counts them, and SPARE more, 1 where it isn't
given; that plan is written too. Some flights that follow each other at a hub are through pairs.
"""

import random
import tempfile
from pathlib import Path
from typing import Dict, Iterable, Iterator, List, Sequence, Tuple

import judge_reference
from hubs import START, Kind, Network, Tour, cost, kinds_of, name, places, sizes_of, sums_of
from shared import Place, put, write_by_words

from fleetplan.forms import MOST_AIRCRAFT
from fleetplan.tables import DATED
from fleetplan.times import DAY, clock

DAYS = 7
WEEKEND = (6, 7)
# Of each day the demand, beside that of its timetable.
DEMAND = (1.1, 0.95, 1.0, 1.05, 1.2, 0.7, 0.95)
# How often a tour goes at the weekend too, and how many times 5 minutes later at most.
KEPT, LATER = 0.5, 24
# How often flights are a through pair that follow each other at a hub within so many minutes.
PAIRED, WAIT = 0.3, 100


def fleets_for(tour: Tour, kinds: Sequence[Kind]) -> List[int]:
    """The kinds that may fly all of a tour, by their places, the cheapest first."""
    return [place for _, place in sorted(sums_of(tour, kinds))]


def timetable(draw: random.Random, network: Network, kinds: Sequence[Kind], legs: int, begun: Iterable[Tour] = ()) -> List[Tuple[Tour, int]]:
    """Tours of just so many legs, each with its kind; some may be given. All departures lie within a day from 03:00 on."""
    given, tours = list(begun), []
    while legs:
        tour = given.pop() if given else network.tour(draw)
        may = fleets_for(tour, kinds) if tour and tour[-1][1] < START + DAY else []
        if may and len(tour) <= legs and legs - len(tour) != 1:
            tours.append((tour, may[0] if draw.random() < 0.7 else draw.choice(may)))
            legs -= len(tour)
    return tours


def at_weekend(draw: random.Random, tours: Sequence[Tuple[Tour, int]]) -> Iterator[Tour]:
    """The tours of weekdays that go at the weekend, later in the day."""
    for tour, _ in tours:
        more = 5 * draw.randrange(LATER + 1)
        if draw.random() < KEPT:
            yield [(origin, minute + more, to, block, demand) for origin, minute, to, block, demand in tour]


class Week:
    """The records of the tables, and of each flight its fleet by the tours."""

    def __init__(self, draw: random.Random, network: Network, kinds: Sequence[Kind]) -> None:
        self.draw, self.network, self.kinds = draw, network, kinds
        self.legs: List[Sequence[object]] = []
        self.costs: List[Sequence[object]] = []
        self.throughs: List[Sequence[object]] = []
        self.plan: List[Tuple[str, str]] = []

    def add(self, day: int, tours: Sequence[Tuple[Tour, int]]) -> None:
        """Adds the flights of a day. Those after midnight are of the next date, and after Sunday's of the first one."""
        at = 0
        for tour, kind in tours:
            for place, (origin, minute, to, block, demand) in enumerate(tour):
                flight = f"L{at}D{day}"
                date = (day - 1 + minute // DAY) % DAYS + 1
                self.legs.append((flight, date, self.code(origin), clock(minute), self.code(to), clock(minute + block)))
                now = origin, minute, to, block, int(demand * DEMAND[day - 1] * self.draw.uniform(0.9, 1.1))
                paid = [(self.fleet(at), cost(now, it)) for at, it in enumerate(self.kinds)]
                self.costs.extend((flight, fleet, price) for fleet, price in paid if price is not None)
                self.plan.append((flight, self.fleet(kind)))
                follows = tour[place + 1 : place + 2]
                if follows and to < self.network.hubs and follows[0][1] - minute - block <= WAIT and self.draw.random() < PAIRED:
                    self.throughs.append((flight, f"L{at + 1}D{day}", 10 * self.draw.randrange(10, 40)))
                at += 1

    def code(self, place: int) -> str:
        """The code of a station."""
        return name(place, self.network.hubs)

    def fleet(self, place: int) -> str:
        """The name of a fleet."""
        return f"F{self.kinds[place][0]}"

    def tables(self, aircraft: Sequence[int]) -> Dict[str, Sequence[Sequence[object]]]:
        """The tables, where each kind has so many aircraft."""
        fleets = [(self.fleet(at), count, kind[1]) for at, (kind, count) in enumerate(zip(self.kinds, aircraft))]
        hubs = self.network.hubs
        stations = [(code, more, "yes" if at < hubs else flag) for at, (code, more, flag) in enumerate(places(self.network.stations, hubs))]
        return {
            "stations.csv": stations,
            "fleets.csv": fleets,
            "legs.csv": self.legs,
            "costs.csv": self.costs,
            "throughs.csv": self.throughs,
            "plan.csv": self.plan,
        }

    def used(self) -> List[int]:
        """How many aircraft of each kind the tours use."""
        with tempfile.TemporaryDirectory() as folder:
            put(folder, self.tables([MOST_AIRCRAFT] * len(self.kinds)), legs=DATED)
            tables = judge_reference.Tables(Path(folder), START, DAYS)
        flown: Dict[str, List[str]] = {self.fleet(at): [] for at in range(len(self.kinds))}
        for flight, fleet in self.plan:
            flown[fleet].append(flight)
        return [judge_reference.Movements(tables, flights, fleet).used for fleet, flights in flown.items()]


def write(folder: Place, legs: int, fleets: int, number: int = 1, spare: int = 1) -> None:
    """Writes the tables of a number."""
    draw, kinds = random.Random(number), kinds_of(fleets)
    network = Network(draw, *sizes_of(legs))
    weekdays = timetable(draw, network, kinds, legs)
    weekend = timetable(draw, network, kinds, legs, at_weekend(draw, weekdays))
    week = Week(draw, network, kinds)
    for day in range(1, DAYS + 1):
        week.add(day, weekend if day in WEEKEND else weekdays)
    put(folder, week.tables([it + spare for it in week.used()]), legs=DATED)


if __name__ == "__main__":
    write_by_words(__doc__, 5, write)
