"""Has `fleetplan make` write made schedules: legs out of one hub and back, flown by two fleets, drawn from a number.

All legs on the first fleet are always a legal assignment, so each schedule has a plan. `make` also solves it, which takes a
part of a second at 100 legs, and a second or two at 1,000.
"""

import sys
from pathlib import Path
from typing import Any, Dict, List, Optional

from shared import FLAGGED, Place, program_of, rows

import fleetplan


def make(folder: Place, number: int, legs: int, program: Optional[Place] = None) -> None:
    """Has the program write the tables of a number into a folder, with so many legs."""
    fleetplan.make(str(folder), number, legs, fleetplan.Runner(program_of(program)))


def period_of(folder: Place) -> int:
    """After how many days the schedule of a folder repeats: the last day of its legs, and 1 where legs have none."""
    return max((int(row.get("day", 1)) for row in rows(folder, "legs.csv")), default=1)


def flags_of(folder: Place) -> List[str]:
    """The flags by which the program reads tables that stand in a folder beside the five."""
    return [flag for flag, name in FLAGGED.items() if Path(folder, name).exists()]


def reading_of(folder: Place) -> Dict[str, Any]:
    """The options by which the program reads the tables of a folder, none where it repeats each day and has five."""
    period = period_of(folder)
    return {**({"period": period} if period > 1 else {}), **{it[2:]: True for it in flags_of(folder)}}


def want_one_day(folder: Place, what: str) -> None:
    """Ends where the schedule of a folder has several days, of which a script knows nothing."""
    if period_of(folder) > 1:
        sys.exit(f"{folder}: {what} knows schedules of one day alone")
