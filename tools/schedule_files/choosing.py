"""Other times of legs, and legs that may be left out, as files of the caller's say."""

from collections import Counter
from typing import Dict, List, Sequence, Tuple

from costing import legs
from costing.legs import EACH, flight_or_each
from fleetplan.errors import Unread
from fleetplan.tables import ASKED, HEADERS, MOST_TRIPLES, MOST_WINDOWS, TABLE
from schedule_files.costing import Cost
from schedule_files.files import judged
from schedule_files.selecting import Flown

# Of each flight of a caller's file the rest of its records.
Found = Dict[str, List[List[str]]]


class Asked:
    """A table that an option of the program has read, by a caller's file with its header: the records of the legs, and the flights there
    that no leg has. A flight there is a leg's name, or that without the day, or `*` for each other leg."""

    def __init__(self, option: str, path: str, flown: Sequence[Flown], costs: Sequence[Cost]) -> None:
        self.option, self.table, self.path = option, ASKED[option], path
        _, *forms = TABLE[self.table].forms
        found: Found = {}
        for flight, *rest in judged(path, HEADERS[self.table], (flight_or_each, *forms), pair if option == "windows" else None):
            found.setdefault(flight, []).append(rest)
        self.records = [(it.name, *rest) for it in flown for rest in own_of(it, found)]
        self.unknown = sorted(set(found) - {EACH} - {key for it in flown for key in keys_of(it)})
        if option == "windows":
            self.check_count(found)
            self.check_times(costs)

    def check_count(self, found: Found) -> None:
        """Refuses more records of a flight than a leg may have."""
        most = max(found, key=lambda it: len(found[it]), default=None)
        if most and len(found[most]) > MOST_WINDOWS:
            raise Unread.of(self.path, f"has {len(found[most])} records of {most}, it should have {MOST_WINDOWS} at most")

    def check_times(self, costs: Sequence[Cost]) -> None:
        """Refuses more pairs of a leg and a fleet, each as often as the leg has times, than tables may have."""
        own = Counter(flight for flight, *_ in self.records)
        count = sum(1 + own[flight] for flight, *_ in costs)
        if self.records and count > MOST_TRIPLES:
            ways = "ask for fewer legs, or give fewer times or fleets"
            raise Unread(f"{self.path}: {count:,} pairs of a leg and a fleet at their times, and tables have {MOST_TRIPLES:,} at most: {ways}")


def keys_of(flown: Flown) -> Tuple[str, ...]:
    """Returns what may stand for a leg, the first one that does being taken."""
    return legs.keys_of(flown.name, flown.plain)


def own_of(flown: Flown, found: Found) -> List[List[str]]:
    """Returns the records of a leg."""
    return next((found[it] for it in keys_of(flown) if it in found), [])


def pair(row: Sequence[str]) -> Tuple[object, ...]:
    """Returns what stands once in a table of other times: a flight and its shift."""
    return row[0], int(row[1])
