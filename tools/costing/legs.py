"""The legs that are priced, and which names of a file of figures stand for them."""

import os
from typing import Container, Dict, List, Mapping, NamedTuple, Optional, Sequence, Tuple

from fleetplan.errors import Unread
from fleetplan.forms import name
from fleetplan.judged import judged
from fleetplan.records import read_table
from fleetplan.tables import DATED, HEADERS, MOST_DAYS, TABLE, forms_of
from fleetplan.times import DAY, clock, minute_of

# What stands for each leg that has no record of its own.
EACH = "*"


class Place(NamedTuple):
    """Where a leg or a fleet stands: a file, and its record, or its line where that is what is counted there."""

    path: str
    number: int
    counted: str = "record"

    def fault(self, what: str, column: Optional[str] = None) -> Unread:
        """Returns the fault of it."""
        return Unread(f"{self.path} {self.counted} {self.number}: {what}", file=self.path, record=self.number, column=column)


class Leg(NamedTuple):
    """A leg: its flight, the names that may stand for it in a file of figures, its stations, its minute of departure from midnight in UTC,
    its block in minutes, and where it stands."""

    flight: str
    keys: Tuple[str, ...]
    start: str
    departure: int
    end: str
    block: int
    place: Place

    @property
    def way(self) -> str:
        """The flight with its stations and times."""
        return f"{self.flight} {self.start} {clock(self.departure)} {self.end} {clock(self.departure + self.block)}"


def keys_of(flight: str, plain: Optional[str]) -> Tuple[str, ...]:
    """Returns the names that may stand for a flight, by its name without the day, where it has one: the first of them that a file has is
    taken."""
    return (flight, *([plain] if plain and plain != flight else []), EACH)


def key_of(leg: Leg, found: Container[str]) -> Optional[str]:
    """Returns the name that stands for a leg among those of a file, or None."""
    return next((it for it in leg.keys if it in found), None)


def unknown(found: Mapping[str, object], legs: Sequence[Leg]) -> List[str]:
    """Returns the names of a file that stand for no leg."""
    known = {key for leg in legs for key in leg.keys}
    return sorted(it for it in found if it not in known and it != EACH)


def flight_or_each(text: str) -> Optional[str]:
    """Says what is wrong with a flight, or with what stands for each, or returns None."""
    return None if text == EACH else name(text)


def leg_of(row: Sequence[str], place: Place, names: Mapping[str, str]) -> Leg:
    """Returns the leg of a record of legs.csv. Its name without the day is that without D and its day where it ends so, else the one that is
    known for it."""
    flight, *days, start, dep, end, arr = row
    ending = f"D{days[0]}" if days else ""
    plain = flight[: -len(ending)] if ending and flight.endswith(ending) else None
    departure = minute_of(dep)
    keys = keys_of(flight, plain or names.get(flight))
    return Leg(flight, keys, start, departure, end, (minute_of(arr) - departure) % DAY, place)


def legs_in(rows: Sequence[Sequence[str]], path: str, names: Optional[Mapping[str, str]] = None) -> List[Leg]:
    """Returns the legs of the records of a legs.csv, which all have their form."""
    return [leg_of(row, Place(path, number), names or {}) for number, row in enumerate(rows, 2)]


def read_legs(folder: str) -> List[Leg]:
    """Returns the legs of a folder, or raises Unread."""
    path = os.path.join(folder, "legs.csv")
    headers = {it: forms_of("legs.csv", it, MOST_DAYS) for it in (HEADERS["legs.csv"], DATED)}
    _, rows = judged(path, headers, most=TABLE["legs.csv"].most)
    legs = legs_in(rows, path, plain_names(folder, rows))
    for it in legs:
        if it.start == it.end:
            raise it.place.fault(f"{it.flight} arrives at the station that it departs from", "to")
        if not it.block:
            raise it.place.fault(f"{it.flight} arrives in the minute of its departure", "arr")
    return legs


def read_fleets(folder: str) -> Dict[str, Place]:
    """Returns the fleets of a folder with their places, or raises Unread."""
    path, table = os.path.join(folder, "fleets.csv"), TABLE["fleets.csv"]
    _, rows = judged(path, {table.header: table.forms}, most=table.most)
    return {row[0]: Place(path, number) for number, row in enumerate(rows, 2)}


def plain_names(folder: str, rows: Sequence[Sequence[str]]) -> Dict[str, str]:
    """Returns the names without the day of legs of which the own name doesn't tell it, as N1, by the names.csv of tools/ssim, where that
    stands beside a legs.csv with such legs and days; or raises Unread."""
    path = os.path.join(folder, "names.csv")
    if all(len(it) != len(DATED) or it[0].endswith(f"D{it[1]}") for it in rows) or not os.path.lexists(path):
        return {}
    from schedule_files import naming

    return naming.plain_names(read_table(path, (naming.NAMES, naming.ZONED))[1])
