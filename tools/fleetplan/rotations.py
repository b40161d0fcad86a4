"""What `solve` wrote of a schedule: its plan, and what became of each fleet's rotation."""

import os
import re
from typing import Dict, Iterable, List, NamedTuple, NoReturn, Optional, Sequence, Tuple

from fleetplan.errors import REFUSED, Unread
from fleetplan.records import rows_of
from fleetplan.schedule import Leg, Plan, Schedule
from fleetplan.times import DAY

# The kinds of records that tell what became of a rotation.
_ENDS = ("tour", "unused", "nights", "apart", "none", "visits")


class Night(NamedTuple):
    """A night: its station (None aloft), whether it is for maintenance, and whether it is too short for that at a station that maintains."""

    station: Optional[str]
    maintains: bool
    is_short: bool = False


class Flown:
    """A flight of a tour: the tour's day on which it departs, from 0, the nights after it, and the minutes from its arrival to the next
    departure (stay)."""

    def __init__(self, leg: Leg, busy: int) -> None:
        self.leg, self.busy, self.day, self.stay = leg, busy, 0, 0
        self.nights: List[Night] = []

    @property
    def is_short(self) -> bool:
        """Whether its nights are too short for maintenance at a station that maintains."""
        return any(it.is_short for it in self.nights)

    @property
    def may_maintain(self) -> bool:
        """Whether a night after it is at a station that maintains, however short."""
        return any(it.maintains or it.is_short for it in self.nights)


class Rotation:
    """What became of a fleet's rotation: its words, its tour in the order of flying (empty where there is none), its days, the
    chosen through pairs of the first round, and whether the tour keeps them."""

    def __init__(self, fleet: str) -> None:
        self.fleet, self.words, self.days, self.keeps = fleet, "", 0, True
        self.tour: List[Flown] = []
        self.pairs: List[Tuple[str, str]] = []


def refuse(path: str, why: str) -> NoReturn:
    """Refuses files that don't belong together: raises Unread."""
    raise Unread.of(path, why, REFUSED)


def told(kind: str, a: str, b: str) -> str:
    """Returns the words of what became of a rotation, by its record."""
    return {
        "tour": f"tour of {b} legs in {a} days",
        "nights": f"too few nights {a} of {b}",
        "apart": f"apart {a} legs",
        "visits": "visits spent",
    }.get(kind, kind)


def ends_of(folder: str) -> List[Tuple[str, str]]:
    """Returns the fleets of rotation.csv and what became of their rotations in words, or nothing where it doesn't read."""
    try:
        rows = rows_of(folder, "rotation.csv")
    except Unread:
        return []
    last = {fleet: told(kind, a, b) + (" without throughs" if turn == "2" else "") for fleet, turn, kind, a, b in rows if kind in _ENDS}
    return list(last.items())


def rotations_of(schedule: Schedule, plan: Plan) -> List[Rotation]:
    """Returns the rotations of rotation.csv, one for each fleet in the order of the table, or raises Unread."""
    path = os.path.join(schedule.folder, "rotation.csv")
    rows = rows_of(schedule.folder, "rotation.csv")
    if not rows:
        refuse(path, "has no rotation: solve found no plan")
    rotations: Dict[str, Rotation] = {}
    for row in rows:
        _read_row(path, schedule, rotations, row)
    if list(rotations) != list(schedule.aircraft):
        refuse(path, "doesn't tell the fleets of fleets.csv in their order")
    for it in rotations.values():
        _check(path, schedule, plan, it)
    least = least_night_of(rotations.values())
    if least > DAY or not is_by_least_night(rotations.values(), least):
        refuse(path, f"has a night for maintenance that isn't longer than a short one, or a short one of {DAY} minutes or more")
    return list(rotations.values())


def least_night_of(rotations: Iterable[Rotation]) -> int:
    """Returns the least that a stay of a night for maintenance may have been made to last, in minutes: 0 where no night is short."""
    return max((flown.stay + 1 for it in rotations for flown in it.tour if flown.is_short), default=0)


def is_by_least_night(rotations: Iterable[Rotation], minutes: int) -> bool:
    """Returns whether exactly the nights are for maintenance, of those at stations that maintain, whose stay is so many minutes or more."""
    return all(it.is_short == (it.stay < minutes) for rotation in rotations for it in rotation.tour if it.may_maintain)


def _read_row(path: str, schedule: Schedule, rotations: Dict[str, Rotation], row: Sequence[str]) -> None:
    """Adds what a record says. A second round takes the place of the first one's tour."""
    fleet, turn, kind, a, b = row
    rotation = rotations.setdefault(fleet, Rotation(fleet))
    if fleet not in schedule.aircraft or turn not in ("1", "2"):
        refuse(path, f"has a record that is none of its forms: {','.join(row)}")
    if kind == "pair":
        rotation.pairs.append((a, b))
    elif kind in _ENDS:
        rotation.words = told(kind, a, b) + (" without throughs" if turn == "2" else "")
        rotation.keeps = turn == "1"
        rotation.tour = []
        rotation.days = int(a) if kind == "tour" and re.fullmatch(r"[0-9]{1,6}", a) else 0
    elif kind == "leg" and rotation.days:
        if a not in schedule.legs:
            refuse(path, f"names a flight that legs.csv doesn't have: {a}")
        leg = schedule.legs[a]
        rotation.tour.append(Flown(leg, schedule.busy(leg, fleet)))
    elif kind == "night" and rotation.tour:
        rotation.tour[-1].nights.append(Night(None if b == "aloft" else a, b == "yes", b == "short"))
    elif kind not in ("leg", "order"):
        refuse(path, f"has a record that is none of its forms: {','.join(row)}")


def _check(path: str, schedule: Schedule, plan: Plan, rotation: Rotation) -> None:
    """Refuses a rotation that isn't one of this plan and this day start, and counts the days of its flights."""
    if not rotation.words:
        refuse(path, f"doesn't say what became of {rotation.fleet}")
    own = sorted(flight for flight, fleet in plan.items() if fleet == rotation.fleet)
    if bool(own) == (rotation.words == "unused") or (rotation.days and own != sorted(it.leg.flight for it in rotation.tour)):
        refuse(path, f"isn't of this plan.csv: the flights of {rotation.fleet} are others")
    first = rotation.tour[0].leg.departure // DAY if rotation.tour else 0
    day = 0
    for flown, following in zip(rotation.tour, rotation.tour[1:] + rotation.tour[:1]):
        flown.day = (first + day) % rotation.days
        flown.stay = _departs(schedule, flown, following) - flown.leg.departure - flown.leg.block
        told = [Night(it.station, it.maintains or it.is_short) for it in flown.nights]
        if flown.leg.end != following.leg.start or told != _nights_between(schedule, flown, following):
            why = f"isn't by this day start: the nights of {rotation.fleet} are others. Give the --day-start of solve"
            refuse(path, why if schedule.period == 1 else f"{why}, and its --period")
        day += len(flown.nights)
    if day != rotation.days:
        refuse(path, f"has {day} nights for the {rotation.days} days of {rotation.fleet}")


def _departs(schedule: Schedule, flown: Flown, following: Flown) -> int:
    """Returns the minute of the second of two departures of one aircraft, counted as that of the first."""
    ready = flown.leg.departure + flown.busy
    return ready + (following.leg.departure - ready) % schedule.minutes


def _nights_between(schedule: Schedule, flown: Flown, following: Flown) -> List[Night]:
    """Returns the nights between two departures of one aircraft: aloft until it is ready, then at the station where it landed. None is
    short."""
    ready, station = flown.leg.departure + flown.busy, flown.leg.end
    nights = range(flown.leg.departure // DAY, _departs(schedule, flown, following) // DAY)
    return [Night(None, False) if it < ready // DAY else Night(station, schedule.maintains[station]) for it in nights]
