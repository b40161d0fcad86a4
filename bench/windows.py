#!/usr/bin/env python3
"""Writes a hub and spoke schedule whose legs may depart at several times, always the same for a number.

usage: windows.py FOLDER LEGS FLEETS [NUMBER [TIMES [FEWER]]]

The tables are those of hubs.py. Beside them windows.csv gives each leg TIMES times, 4 where it isn't given, its own with them: 5, 10 and
more minutes later and earlier, in turn, each dearer than the one before. Each fleet has so many aircraft FEWER, 0 where it isn't given,
in percent of its own, rounded down.
"""

import random
from typing import List

import hubs
from shared import Place, put, rows, write_by_words
from skips import fewer_aircraft

STEP = 5


def shifts_of(times: int) -> List[int]:
    """So many times of a leg but its own."""
    return [STEP * (at // 2 + 1) * (-1 if at % 2 else 1) for at in range(times - 1)]


def write(folder: Place, legs: int, fleets: int, number: int = 1, times: int = 4, fewer: int = 0) -> None:
    """Writes the tables of a number."""
    hubs.write(folder, legs, fleets, number)
    draw = random.Random(f"windows {number}")
    flights = [row["flight"] for row in rows(folder, "legs.csv")]
    windows = [(flight, shift, abs(shift) * draw.randrange(5, 30)) for flight in flights for shift in shifts_of(times)]
    put(folder, {"windows.csv": windows, "fleets.csv": fewer_aircraft(folder, fewer)})


if __name__ == "__main__":
    write_by_words(__doc__, 6, write)
