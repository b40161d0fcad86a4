"""Names of legs of at most 8 bytes, and the legs that follow each other as one flight."""

from __future__ import annotations

import itertools
from collections import Counter
from functools import partial
from typing import Dict, List, Mapping, Optional, Sequence, Set, Tuple

from schedule_files.days import Dates
from schedule_files.reading import Leg, Schedule
from schedule_files.selecting import Flown

# The header of names.csv: of which leg of which line, on which date, each name is.
NAMES = ("flight", "airline", "number", "suffix", "variation", "leg", "line", "operates")
# The same with the variations from UTC at which it departs and arrives. Both headers are read, and this one is written.
ZONED = (*NAMES, "dep-utc", "arr-utc")
MOST_BYTES = 8
LETTERS = "ABCDEFGHIJKLMNOPQRSTUVWXYZ"


def name_all(schedule: Schedule, flown: Sequence[Flown], dates: Dates) -> None:
    """Names legs: by airline and number, and a suffix where there is one, with a letter by leg sequence where a flight of the file has
    several legs, and with D and the day where tables are of several days. A leg whose name is too long, or stands for another leg
    already, is N1, N2 and so on."""
    several = {it.name for it in schedule.legs if it.sequence > 1}
    wanted = [wished(it.leg, it.leg.name in several, f"D{it.day}" if dates.count > 1 else "") for it in flown]
    taken = set(wanted)
    numbered = (it for it in (f"N{number}" for number in itertools.count(1)) if it not in taken)
    given: Set[str] = set()
    for it, wish in zip(flown, wanted):
        it.plain = wished(it.leg, it.leg.name in several)
        it.name = next(numbered) if wish is None or wish in given else wish
        given.add(it.name)


def wished(leg: Leg, has_letter: bool, day: str = "") -> Optional[str]:
    """Returns the name that a leg should have, or None where it doesn't fit."""
    if leg.sequence > len(LETTERS):
        return None
    name = f"{leg.airline.strip()}{leg.flight}{leg.suffix.strip()}{LETTERS[leg.sequence - 1] if has_letter else ''}{day}"
    return name if len(name) <= MOST_BYTES else None


def plain_names(rows: Sequence[Sequence[str]]) -> Dict[str, str]:
    """Returns of each leg of the records of a names.csv its name without the day, as far as that fits. A flight has a letter where another
    one of its legs stands there."""
    several = {tuple(row[1:4]) for row in rows if row[5] != "1"}
    found = {}
    for flight, *number, _, sequence, _, _ in (it[: len(NAMES)] for it in rows):
        if tuple(number) not in several or sequence.isdigit() and 1 <= int(sequence) <= len(LETTERS):
            plain = "".join([*number, LETTERS[int(sequence) - 1] if tuple(number) in several else ""])
            found.update({flight: plain} if len(plain) <= MOST_BYTES else {})
    return found


def _rank(flown: Flown, places: Mapping[str, int], to: Flown) -> Tuple[bool, int]:
    """Returns what comes first among the legs that may follow one: the same variation, and then one that follows fewer."""
    return to.leg.variation != flown.leg.variation, places[to.name]


def throughs(flown: Sequence[Flown], dates: Dates) -> List[Tuple[Flown, Flown]]:
    """Returns pairs of legs of one flight number that follow each other at a station, by the first. Where tables are of several days both
    are of one date of operation, by the place of that in the period. Where several may follow, one of the same variation comes before
    another, and then the one that departs first."""
    places: Counter[str] = Counter()
    following: Dict[object, List[Flown]] = {}
    for it in flown:
        following.setdefault((it.operates % dates.count, it.leg.name, it.leg.sequence, it.leg.origin), []).append(it)
    pairs = []
    for it in flown:
        after = following.get((it.operates % dates.count, it.leg.name, it.leg.sequence + 1, it.leg.destination), [])
        if after:
            first = min(after, key=partial(_rank, it, places))
            places[first.name] += 1
            pairs.append((it, first))
    return pairs
