#!/usr/bin/env python3
"""Writes a hub and spoke schedule of which some legs may be left out, always the same for a number.

usage: skips.py FOLDER LEGS FLEETS [NUMBER [FEWER]]

The tables are those of hubs.py. Each fifth leg may be left out, for half more than its least cost. Each fleet has so many aircraft
FEWER, 0 where it isn't given, in percent of its own, rounded down.
"""

from typing import Dict, List, Tuple

import hubs
from shared import Place, put, rows, write_by_words

EACH = 5


def fewer_aircraft(folder: Place, fewer: int) -> List[Tuple[str, int, str]]:
    """The records of the fleets of a folder, with so many of their aircraft fewer, in percent."""
    return [(row["fleet"], int(row["aircraft"]) * (100 - fewer) // 100, row["turn"]) for row in rows(folder, "fleets.csv")]


def write(folder: Place, legs: int, fleets: int, number: int = 1, fewer: int = 0) -> None:
    """Writes the tables of a number."""
    hubs.write(folder, legs, fleets, number)
    least: Dict[str, int] = {}
    for row in rows(folder, "costs.csv"):
        least[row["flight"]] = min(int(row["cost"]), least.get(row["flight"], int(row["cost"])))
    skips = [(flight, cost * 3 // 2) for place, (flight, cost) in enumerate(least.items()) if place % EACH == 0]
    put(folder, {"optional.csv": skips, "fleets.csv": fewer_aircraft(folder, fewer)})


if __name__ == "__main__":
    write_by_words(__doc__, 5, write)
