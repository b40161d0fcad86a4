#!/usr/bin/env python3
"""Writes a hub and spoke schedule with costs for several fleets, always the same for a number.

usage: hubs.py FOLDER LEGS FLEETS [NUMBER [MOST]]

Aircraft go to and fro between hubs and spokes in tours of a day, each back where it began, until LEGS legs are flown or a few more.
A leg has a demand that changes over the day. A fleet may fly it if it has the range, and pays for minutes, seats and those
that it leaves behind. Each tour goes to a fleet that may fly all of it, at least cost and at times another one, and a fleet has
the aircraft of its tours and some more: so there is a legal plan. With MOST the costs are drawn from 1 to MOST in place of that.
"""

import random
from typing import Dict, List, Optional, Sequence, Tuple

from shared import Place, put, write_by_words

from fleetplan.times import DAY, clock

START = 180
LEGS_A_STATION = 11
# seats, turn in minutes, range in minutes, cost of a minute
KINDS = (
    (50, 25, 130, 30), (70, 30, 150, 36), (100, 35, 200, 44), (150, 40, 280, 58),
    (180, 45, 300, 66), (220, 55, 330, 80), (250, 60, 400, 92), (300, 70, 500, 110),
)


def name(place: int, hubs: int) -> str:
    """The code of a station, by its place."""
    return f"HU{chr(65 + place)}" if place < hubs else f"S{chr(65 + (place - hubs) // 26)}{chr(65 + (place - hubs) % 26)}"


# Seats, turn, range and cost of a minute of a kind of aircraft; a leg as (from, departure, to, block, demand).
Kind = Tuple[int, int, int, int]
Leg = Tuple[int, int, int, int, int]
Tour = List[Leg]


class Network:
    """Stations, of which the first are hubs, with how often tours go there, and the blocks between hubs and all others."""

    def __init__(self, draw: random.Random, stations: int, hubs: int) -> None:
        self.stations, self.hubs = stations, hubs
        self.block: Dict[Tuple[int, int], int] = {}
        for hub in range(hubs):
            for other in range(stations):
                self.block[hub, other] = self.block[other, hub] = 5 * draw.randrange(9, 27 if other < hubs else 46)
        self.weight = [draw.choice((1, 1, 2, 3, 5)) for _ in range(stations)]

    def tour(self, draw: random.Random) -> Tour:
        """A tour of legs (from, departure, to, block, demand), or none where it took too long."""
        stations, hubs, block, weight = self.stations, self.hubs, self.block, self.weight
        at = home = draw.choices(range(stations), weight)[0]
        minute = START + 5 * draw.randrange(24, 70)
        tour: Tour = []
        while True:
            to = draw.choices(range(hubs, stations), weight[hubs:])[0] if at < hubs and draw.random() < 0.9 else draw.randrange(hubs)
            if to == at:
                continue
            if len(tour) >= 2 and (at < hubs and home >= hubs or home < hubs <= at or draw.random() < 0.4):
                to = home
            if to == at or (at, to) not in block:
                continue
            peak = 1.4 if minute % DAY in range(400, 560) or minute % DAY in range(960, 1140) else 0.8
            tour.append((at, minute, to, block[at, to], int(draw.uniform(30, 170) * peak * (1.3 if to < hubs else 1))))
            minute += block[at, to] + 75 + 5 * draw.randrange(0, 14)
            at = to
            if at == home and (minute > START + 1000 or draw.random() < 0.3) or len(tour) > 8 and at == home:
                break
            if minute > START + DAY + 300:
                return []
        return tour if minute <= START + DAY + 200 else []


def tours_of(draw: random.Random, legs: int, stations: int, hubs: int) -> List[Tour]:
    """Tours of so many legs, or a few more."""
    network, tours, flown = Network(draw, stations, hubs), [], 0
    while flown < legs:
        tour = network.tour(draw)
        if tour:
            tours.append(tour)
            flown += len(tour)
    return tours


def cost(leg: Leg, kind: Kind) -> Optional[int]:
    """What a kind of aircraft costs on a leg; none where it is out of its range."""
    _, _, _, block, demand = leg
    seats, _, reach, minute = kind
    return block * minute + 30 * seats + 190 * max(0, demand - seats) if block <= reach else None


def sums_of(tour: Tour, kinds: Sequence[Kind]) -> List[Tuple[int, int]]:
    """What a tour costs with each kind that may fly all of it, with the kind's place."""
    costs = ([cost(leg, kind) for leg in tour] for kind in kinds)
    return [(sum(it or 0 for it in own), place) for place, own in enumerate(costs) if None not in own]


def kinds_of(fleets: int) -> Sequence[Kind]:
    """The kinds of so many fleets: those above, and for more than eight some with a few seats more."""
    if fleets > len(KINDS):
        more = [(seats + step, turn + step, reach + 2 * step, minute + step // 2) for step in (10, 5) for seats, turn, reach, minute in KINDS]
        return (*KINDS, *more)[:fleets]
    if fleets > 6:
        return KINDS[len(KINDS) - fleets :]
    return KINDS[:2] + KINDS[-(fleets - 2) :] if fleets > 4 else KINDS[1 : fleets + 1]


def sizes_of(legs: int) -> Tuple[int, int]:
    """How many stations a day of so many legs has, and how many hubs."""
    return max(6, legs // LEGS_A_STATION), 2 if legs < 150 else 3


def places(stations: int, hubs: int) -> List[Tuple[str, int, str]]:
    """The records of the stations."""
    return [(name(s, hubs), 5 if s < hubs else 0, "yes" if s % 3 == 0 else "no") for s in range(stations)]


def write(folder: Place, legs: int, fleets: int, number: int = 1, most: Optional[int] = None) -> None:
    """Writes the tables of a number."""
    draw = random.Random(number)
    (stations, hubs), kinds = sizes_of(legs), kinds_of(fleets)
    tours, aircraft = tours_of(draw, legs, stations, hubs), [2] * fleets
    kept = []
    for tour in tours:
        sums = sums_of(tour, kinds)
        if sums:
            kept.append(tour)
            aircraft[min(sums)[1] if draw.random() < 0.7 else draw.choice(sums)[1]] += 1 if draw.random() < 0.7 else 2
    flown = [leg for tour in kept for leg in tour]
    pairs = [(f"L{at}", f"F{kind[0]}", paid) for at, leg in enumerate(flown) for kind in kinds if (paid := cost(leg, kind)) is not None]
    tables: Dict[str, Sequence[Sequence[object]]] = {
        "stations.csv": places(stations, hubs),
        "fleets.csv": [(f"F{kind[0]}", count, kind[1]) for kind, count in zip(kinds, aircraft)],
        "legs.csv": [
            (f"L{at}", name(a, hubs), clock(dep), name(b, hubs), clock(dep + block)) for at, (a, dep, b, block, _) in enumerate(flown)
        ],
        "costs.csv": [(leg, fleet, draw.randint(1, most) if most else paid) for leg, fleet, paid in pairs],
        "throughs.csv": [],
    }
    put(folder, tables)


if __name__ == "__main__":
    write_by_words(__doc__, 5, write)
