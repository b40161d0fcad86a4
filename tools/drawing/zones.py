"""Local times of flights, where names.csv of a folder has their variations from UTC, as tools/ssim writes it."""

import os
from typing import Dict, Optional, Tuple

from fleetplan.records import read_table
from fleetplan.texts import quietly
from fleetplan.times import DAY, clock
from schedule_files.days import VARIATIONS
from schedule_files.naming import ZONED

# Of each flight the minutes by which the local times of its departure and its arrival are later than UTC.
Zones = Dict[str, Tuple[int, int]]


def zones_of(folder: str) -> Zones:
    """Returns the variations from UTC of the flights of a folder, none where it doesn't tell them."""
    return quietly(_read, os.path.join(folder, "names.csv")) or {}


def _read(path: str) -> Zones:
    return {it[0]: (VARIATIONS[it[-2]], VARIATIONS[it[-1]]) for it in read_table(path, (ZONED,))[1]}


def local_times(zones: Zones, flight: str, departs: int, lands: int) -> Optional[str]:
    """Returns the local times of a flight in words, by its minutes in UTC, counted from a midnight; or None where they aren't known."""
    if flight not in zones:
        return None
    begins, ends = departs + zones[flight][0], lands + zones[flight][1]
    days = ends // DAY - begins // DAY
    return f"local time {clock(begins)} to {clock(ends)}{f' {days:+}' if days else ''}"
