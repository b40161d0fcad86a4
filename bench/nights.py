#!/usr/bin/env python3
"""Writes a hub and spoke schedule with limits of parking, always the same for a number.

usage: nights.py FOLDER LEGS FLEETS [NUMBER [MOST]]

The tables are those of hubs.py. At each station but the hubs at most MOST aircraft may stand at the end of the day, 7 where it isn't
given.
"""

import hubs
from shared import Place, put, write_by_words

from fleetplan.tables import LIMITED


def write(folder: Place, legs: int, fleets: int, number: int = 1, most: int = 7) -> None:
    """Writes the tables of a number."""
    hubs.write(folder, legs, fleets, number)
    stations, count = hubs.sizes_of(legs)
    limited = [(*row, "-" if place < count else most) for place, row in enumerate(hubs.places(stations, count))]
    put(folder, {"stations.csv": limited}, stations=LIMITED)


if __name__ == "__main__":
    write_by_words(__doc__, 5, write)
