#!/usr/bin/env python3
"""Writes the largest tables that read, and a legal plan for them, into a folder.

usage: make_tables.py DIR [--shuffled] [--limited] [--timed] [--filled]

--shuffled  the costs in another order than by leg and fleet
--limited   each station with room for as many aircraft as all fleets have
--timed     each leg with eight windows and two fleets, and to be left out: 8,000 windows, 18,000 pairs at their times
--filled    each file with blank lines at its end, up to the most bytes that are read

The plan is legal because each fleet flies round trips alone, each of them is back and ready within a day, and no
fleet flies more of them than it has aircraft. It is so by any day start.
"""

import sys
from pathlib import Path
from typing import Dict, List, Sequence, Tuple

from shared import HEADERS, text_of

from fleetplan.tables import LIMITED, MOST_BYTES, SHIFTED, TABLE, Header
from fleetplan.times import DAY, clock

STATIONS, FLEETS, LEGS, THROUGHS = (TABLE[f"{it}.csv"].most for it in ("stations", "fleets", "legs", "throughs"))
SHIFTS = (-20, -15, -10, -5, 5, 10, 15, 20)


def code(station: int) -> str:
    """The code of a station."""
    return "".join(chr(ord("A") + station // size % 26) for size in (676, 26, 1))


def fleet_name(fleet: int) -> str:
    """The name of a fleet."""
    return f"FLEET{fleet:03}"


def flight(leg: int) -> str:
    """The name of a leg."""
    return f"FL{leg:06}"


def extra(station: int) -> int:
    """The extra minutes of a turn at a station."""
    return station * 7 % 31


def turn(fleet: int) -> int:
    """The minutes of a fleet's turn."""
    return 30 + fleet


def fleet_of(leg: int) -> int:
    """The fleet that flies a leg by the plan."""
    return leg // 2 % FLEETS


def round_trip(trip: int) -> List[Tuple[str, ...]]:
    """Out and back between two stations, with the fleet's turn and some wait between them."""
    home, away = trip % STATIONS, (7 * trip + 1) % STATIONS
    block = 60 + 13 * trip % 180
    leaves = 37 * trip % DAY
    lands = leaves + block
    returns = lands + turn(trip % FLEETS) + extra(away) + trip % 60
    out = flight(2 * trip), code(home), clock(leaves), code(away), clock(lands)
    return [out, (flight(2 * trip + 1), code(away), clock(returns), code(home), clock(returns + block))]


def largest(shuffled: bool = False, limited: bool = False, timed: bool = False) -> Dict[str, Tuple[Header, Sequence[Sequence[object]]]]:
    """The files, each as its header and its records."""
    two = [sorted((fleet_of(leg), (fleet_of(leg) + 1) % FLEETS)) for leg in range(LEGS)]
    pairs = [(leg, fleet) for leg in range(LEGS) for fleet in (two[leg] if timed else range(FLEETS))]
    if shuffled:
        pairs = [pairs[7919 * place % len(pairs)] for place in range(len(pairs))]
    links = [(leg, (leg + step) % LEGS) for step in range(1, THROUGHS // LEGS + 1) for leg in range(LEGS)]
    room, shift = (LEGS // 2,) if limited else (), (0,) if timed else ()
    files: Dict[str, Sequence[Sequence[object]]] = {
        "stations.csv": [(code(it), extra(it), "no" if it % 3 else "yes", *room) for it in range(STATIONS)],
        "fleets.csv": [(fleet_name(it), LEGS // 2 // FLEETS, turn(it)) for it in range(FLEETS)],
        "legs.csv": [row for trip in range(LEGS // 2) for row in round_trip(trip)],
        "costs.csv": [(flight(leg), fleet_name(fleet), 10_000 + (31 * leg + 977 * fleet) % 90_000) for leg, fleet in pairs],
        "throughs.csv": [(flight(arriving), flight(departing), arriving % 500) for arriving, departing in links],
        "plan.csv": [(flight(leg), fleet_name(fleet_of(leg)), *shift) for leg in range(LEGS)],
    }
    if timed:
        files["windows.csv"] = [(flight(leg), it, 10 * abs(it) + leg % 7) for leg in range(LEGS) for it in SHIFTS]
        files["optional.csv"] = [(flight(leg), 90_000 + leg) for leg in range(LEGS)]
    headers = {**HEADERS, **({"stations.csv": LIMITED} if limited else {}), **({"plan.csv": SHIFTED} if timed else {})}
    return {name: (headers[name], records) for name, records in files.items()}


def write(folder: Path, shuffled: bool = False, limited: bool = False, timed: bool = False, filled: bool = False) -> List[Path]:
    """Writes the files, and gives their paths."""
    folder.mkdir(parents=True, exist_ok=True)
    files = largest(shuffled, limited, timed)
    for name, (header, records) in files.items():
        text = text_of(header, records)
        (folder / name).write_text(text.ljust(MOST_BYTES, "\n") if filled else text, encoding="ascii")
    return [folder / name for name in files]


def main() -> None:
    """Writes what the words ask for."""
    folders = [word for word in sys.argv[1:] if not word.startswith("-")]
    options = set(sys.argv[1:]) - set(folders)
    if len(folders) != 1 or not options <= {"--shuffled", "--limited", "--timed", "--filled"}:
        sys.exit(__doc__)
    write(Path(folders[0]), **{word[2:]: True for word in options})


if __name__ == "__main__":
    main()
