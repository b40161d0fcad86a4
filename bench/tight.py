#!/usr/bin/env python3
"""Cuts the aircraft of a schedule until none is left over, so that stations must be empty at known minutes.

usage: tight.py FOLDER TO HH:MM [NUMBER]

It takes the tables of FOLDER, whose day starts at HH:MM, gives all fleets the least turn time and each leg a cost on each
fleet, and writes them to TO. All legs are flown by as few aircraft as can be: the flights of the joined schedule are put together
to tours, as many as a few swaps of connections can make. Each tour goes to a fleet (drawn from NUMBER), and a fleet has
the aircraft of its tours. So a legal plan is left, and no aircraft is to spare.
"""

from __future__ import annotations

import random
import sys
from typing import Dict, List, Mapping, Sequence

import schedules
from shared import put

from fleetplan.records import table_of
from fleetplan.tables import TABLES, headers_of
from fleetplan.times import DAY, minute_of
# Of each leg the next one.
Follows = Dict[int, int]


class Flight:
    """A leg as the joined schedule flies it: its stations, its departure, and its minutes until it is ready again."""

    def __init__(self, row: Sequence[str], start: int, turn: int, extras: Mapping[str, int]) -> None:
        _, self.origin, dep, self.target, arr = row
        self.dep = (minute_of(dep) - start) % DAY
        self.busy = ((minute_of(arr) - minute_of(dep)) % DAY or DAY) + turn + extras[self.target]
        self.ready = (self.dep + self.busy) % DAY

    def wait_for(self, other: Flight) -> int:
        """Minutes on the ground until the other departs."""
        return (other.dep - self.ready) % DAY


def connections(flights: Sequence[Flight]) -> Follows:
    """The next leg of each: at each station those that are ready first go first, from a moment on at which none stands there."""
    follows = {}
    for station in {it.origin for it in flights}:
        comes = sorted((at for at, it in enumerate(flights) if it.target == station), key=lambda at: flights[at].ready)
        leaves = sorted((at for at, it in enumerate(flights) if it.origin == station), key=lambda at: flights[at].dep)
        if len(comes) != len(leaves):
            sys.exit(f"tight: {station} is not balanced")
        # As many departures as come before any aircraft is there leave with the last ones of the day before.
        need = max(sum(flights[at].dep <= now for at in leaves) - sum(flights[at].ready <= now for at in comes) for now in range(DAY))
        for place, at in enumerate(comes):
            follows[at] = leaves[(place + max(need, 0)) % len(leaves)]
    return follows


def tours_of(follows: Follows) -> List[List[int]]:
    """The cycles of connections."""
    left, tours = set(follows), []
    while left:
        tour, at = [], min(left)
        while at in left:
            left.remove(at)
            tour.append(at)
            at = follows[at]
        tours.append(tour)
    return tours


def days_of(flights: Sequence[Flight], follows: Follows, tour: Sequence[int]) -> int:
    """The aircraft that fly a tour."""
    return sum(flights[at].busy + flights[at].wait_for(flights[follows[at]]) for at in tour) // DAY


def split(flights: Sequence[Flight], follows: Follows) -> None:
    """Swaps connections of one tour at a station that take no longer together, as long as one parts the tour in two."""
    swapped = True
    while swapped:
        swapped = False
        for tour in tours_of(follows):
            if swapped:
                break
            swapped = any(swap(flights, follows, one, other) for place, one in enumerate(tour) for other in tour[place + 1 :])


def swap(flights: Sequence[Flight], follows: Follows, one: int, other: int) -> bool:
    """Swaps two connections at one station where all wait as long as before, and answers whether it did."""
    first, second = flights[one], flights[other]
    if first.target != second.target:
        return False
    before = first.wait_for(flights[follows[one]]) + second.wait_for(flights[follows[other]])
    after = first.wait_for(flights[follows[other]]) + second.wait_for(flights[follows[one]])
    if before != after:
        return False
    follows[one], follows[other] = follows[other], follows[one]
    return True


def write(folder: str, to: str, start: int, number: int) -> None:
    """Writes the tables of a folder to another one, with no aircraft to spare."""
    read = {name: table_of(folder, name, headers_of(name)) for name in TABLES}
    tables = {name: rows for name, (_, rows) in read.items()}
    fleets, legs, costs = tables["fleets.csv"], tables["legs.csv"], tables["costs.csv"]
    turn = min(int(row[2]) for row in fleets)
    extras = {row[0]: int(row[1]) for row in tables["stations.csv"]}
    flights = [Flight(row, start, turn, extras) for row in legs]
    follows = connections(flights)
    split(flights, follows)
    draw, aircraft = random.Random(number), [0] * len(fleets)
    for tour in tours_of(follows):
        aircraft[draw.randrange(len(aircraft))] += days_of(flights, follows, tour)
    known = {(row[0], row[1]): row[2] for row in costs}
    most = {row[0]: max(int(cost) for (flight, _), cost in known.items() if flight == row[0]) for row in legs}
    tables["fleets.csv"] = [[row[0], str(count), str(turn)] for row, count in zip(fleets, aircraft)]
    tables["costs.csv"] = [[leg[0], row[0], known.get((leg[0], row[0]), str(most[leg[0]]))] for leg in legs for row in fleets]
    put(to, tables, **{name.partition(".")[0]: header for name, (header, _) in read.items()})


def main() -> None:
    """Writes what the words ask for."""
    if len(sys.argv) not in (4, 5):
        sys.exit(__doc__)
    folder, to, start = sys.argv[1:4]
    schedules.want_one_day(folder, "tight.py")
    write(folder, to, minute_of(start), int(sys.argv[4]) if len(sys.argv) == 5 else 1)


if __name__ == "__main__":
    main()
