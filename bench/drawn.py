#!/usr/bin/env python3
"""Draws a small schedule of any kind, always the same for a number.

usage: drawn.py FOLDER NUMBER

The kinds take turns: hubs, the same with costs up to 10^12, with no aircraft to spare, with limits of parking, with other times, with
legs that may be left out, a week, rings, all of these rules at once, and legs at any minute of the day, also over its end, with fleets
that may fly a part of them. Of many there is no plan, since aircraft are taken away. Days start at 03:00, those of rings at 00:00.
"""

import random
import sys
import tempfile
from typing import Callable, List, Sequence, Tuple

import hubs
import nights
import rings
import skips
import tight
import weeks
import windows
from shared import DAY_START, put, rows

from fleetplan.tables import LIMITED
from fleetplan.times import DAY, clock, minute_of

MOST_COST = 10**12


def fewer(folder: str, draw: random.Random) -> None:
    """Takes some aircraft away, each time in two."""
    if draw.random() < 0.5:
        put(folder, {"fleets.csv": skips.fewer_aircraft(folder, draw.randrange(5, 40))})


def of_hubs(folder: str, draw: random.Random) -> None:
    """Legs around hubs."""
    hubs.write(folder, draw.randrange(4, 90), draw.randrange(1, 7), draw.randrange(10**6))


def of_great_costs(folder: str, draw: random.Random) -> None:
    """The same with costs of any size."""
    hubs.write(folder, draw.randrange(4, 80), draw.randrange(2, 6), draw.randrange(10**6), draw.choice((3, 10**5, 10**9, MOST_COST)))


def of_tight(folder: str, draw: random.Random) -> None:
    """The same with no aircraft to spare."""
    with tempfile.TemporaryDirectory() as whole:
        hubs.write(whole, draw.randrange(4, 60), draw.randrange(2, 6), draw.randrange(10**6))
        tight.write(whole, folder, minute_of(DAY_START), draw.randrange(10**6))


def of_nights(folder: str, draw: random.Random) -> None:
    """The same with limits of parking."""
    nights.write(folder, draw.randrange(4, 80), draw.randrange(2, 6), draw.randrange(10**6), draw.randrange(0, 6))


def of_windows(folder: str, draw: random.Random) -> None:
    """The same with other times."""
    windows.write(folder, draw.randrange(4, 50), draw.randrange(1, 5), draw.randrange(10**6), draw.randrange(2, 6), draw.randrange(0, 40))


def of_skips(folder: str, draw: random.Random) -> None:
    """The same with legs that may be left out."""
    skips.write(folder, draw.randrange(4, 80), draw.randrange(1, 6), draw.randrange(10**6), draw.randrange(0, 60))


def of_weeks(folder: str, draw: random.Random) -> None:
    """A week."""
    weeks.write(folder, draw.randrange(4, 13), draw.randrange(2, 5), draw.randrange(10**6), draw.randrange(0, 2))


def of_rings(folder: str, draw: random.Random) -> None:
    """Rings of round trips."""
    rings.write(folder, draw.randrange(1, 4), draw.choice((3, 4, 5)), draw.randrange(10**6))


def with_all(folder: str, draw: random.Random) -> None:
    """Limits of parking, other times and legs that may be left out, some at no cost or at a gain."""
    hubs.write(folder, draw.randrange(4, 50), draw.randrange(1, 5), draw.randrange(10**6))
    stations = [(row["code"], row["extra"], row["maintenance"]) for row in rows(folder, "stations.csv")]
    flights = [row["flight"] for row in rows(folder, "legs.csv")]
    limited = [(*it, draw.choice(("-", "-", "0", "1", "3", "6"))) for it in stations]
    shifts = [(flight, shift, draw.randrange(-50, 500)) for flight in flights if draw.random() < 0.4 for shift in (-40, -5, 15, 300)]
    left = [(flight, draw.randrange(-2000, 30000)) for flight in flights if draw.random() < 0.4]
    put(folder, {"stations.csv": limited}, stations=LIMITED)
    put(folder, {"windows.csv": shifts, "optional.csv": left})


def of_any_minutes(folder: str, draw: random.Random) -> None:
    """Round trips at any minute of the day, each with some of the fleets."""
    codes = [f"A{chr(65 + at)}A" for at in range(draw.randrange(2, 6))]
    fleets = [(f"F{at}", draw.randrange(0, 12), draw.randrange(0, 90)) for at in range(draw.randrange(1, 5))]
    legs: List[Tuple[str, str, str, str, str]] = []
    for trip in range(draw.randrange(1, 30)):
        out, back = draw.sample(codes, 2)
        minute, block = draw.randrange(DAY), draw.randrange(30, 700)
        later = minute + block + draw.randrange(20, 300)
        legs.append((f"O{trip}", out, clock(minute), back, clock(minute + block)))
        legs.append((f"R{trip}", back, clock(later), out, clock(later + block)))
    costs = [(leg[0], fleet[0], draw.randrange(-50, 1000)) for leg in legs for fleet in fleets if draw.random() < 0.85]
    stations = [(code, draw.randrange(0, 30), draw.choice(("yes", "no"))) for code in codes]
    put(folder, {"stations.csv": stations, "fleets.csv": fleets, "legs.csv": legs, "costs.csv": costs, "throughs.csv": []})


KINDS: Sequence[Callable[[str, random.Random], None]] = (
    of_hubs, of_great_costs, of_tight, of_nights, of_windows, of_skips, of_weeks, of_rings, with_all, of_any_minutes
)
# Those of which some aircraft are taken away.
LESS = (of_hubs, of_great_costs, of_nights, of_weeks, with_all)


def write(folder: str, number: int) -> str:
    """Writes the tables of a number, and returns when their day starts."""
    kind = KINDS[number % len(KINDS)]
    draw = random.Random(f"drawn {number}")
    kind(folder, draw)
    if kind in LESS:
        fewer(folder, draw)
    return "00:00" if kind is of_rings else DAY_START


if __name__ == "__main__":
    if len(sys.argv) != 3 or not sys.argv[2].isdigit():
        sys.exit(__doc__)
    write(sys.argv[1], int(sys.argv[2]))
