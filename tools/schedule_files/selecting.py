"""The legs that depart on some dates in UTC, and how many are left out for which reason."""

from __future__ import annotations

from collections import Counter
from typing import AbstractSet, List, Mapping, NamedTuple, Optional, Sequence, Tuple

from fleetplan.errors import Unread
from fleetplan.tables import TABLE
from fleetplan.texts import some
from fleetplan.times import DAY
from schedule_files.days import Dates
from schedule_files.layout import AN_AIRLINE
from schedule_files.reading import Leg, Schedule

# Service types of surface vehicles, and the codes of such vehicles where aircraft types stand.
SURFACE_SERVICES = frozenset("UV")
SURFACE_TYPES = frozenset(("BUS", "LCH", "LMO", "RFS", "TRN"))
ELSEWHERE = "flown under another number (segment data 050)"
DISCLOSED = "operated by another airline (byte 149)"
SURFACE = "by surface (--surface keeps them)"
SEASON = "of another season, by their carrier record"
OTHER = "of another airline of the file (--airline)"
UNASKED = {"services": "of another service type", "types": "of another aircraft type", "stations": "to or from another station"}


class Flown:
    """A leg on one of its dates of operation: its fleet as filed, the day in UTC on which it departs, counted from 1, the minute of that day,
    and its block in minutes; its name, and what that would be without the day, or None where it doesn't fit."""

    __slots__ = ("leg", "fleet", "operates", "day", "minute", "block", "name", "plain")

    def __init__(self, leg: Leg, fleet: str, operates: int, day: int) -> None:
        self.leg, self.fleet, self.operates, self.day = leg, fleet, operates, day
        self.minute, self.block = leg.departure % DAY, leg.arrival - leg.departure
        self.name = ""
        self.plain: Optional[str] = None


# A set of codes, or None where all will do.
Codes = Optional[AbstractSet[str]]


class Choice(NamedTuple):
    """What a call asks for. `services`, `types` and `stations` are sets, or None where all will do; `airline` is one of the file's, or None
    where it has one alone; `families` has the fleet of aircraft types that aren't one of their own."""

    with_surface: bool = False
    services: Codes = None
    types: Codes = None
    stations: Codes = None
    airline: Optional[str] = None
    families: Mapping[str, str] = {}

    def fleet_of(self, kind: str) -> str:
        """Returns the fleet of an aircraft type."""
        return self.families.get(kind, kind)

    def is_of(self, leg: Leg) -> bool:
        """Returns whether a leg is one of the airline that is asked for."""
        return self.airline is None or leg.airline.strip() == self.airline

    def refused(self, leg: Leg) -> Optional[str]:
        """Returns why a leg is left out, or None."""
        if not self.is_of(leg):
            return OTHER
        if leg.is_duplicate:
            return ELSEWHERE
        if leg.disclosure != " ":
            return DISCLOSED
        if not self.with_surface and (leg.service in SURFACE_SERVICES or leg.type in SURFACE_TYPES):
            return SURFACE
        if self.services is not None and leg.service not in self.services:
            return UNASKED["services"]
        if self.types is not None and leg.type not in self.types:
            return UNASKED["types"]
        if self.stations is not None and not {leg.origin, leg.destination} <= self.stations:
            return UNASKED["stations"]
        return None


def flown_on(schedule: Schedule, dates: Dates, choice: Choice) -> Tuple[List[Flown], Counter[str]]:
    """Returns the legs that depart on some days in UTC, in order of departure, and the counts of those that are left out; or refuses more
    than tables may have."""
    chosen: List[Tuple[Leg, int, List[int]]] = []
    left_out: Counter[str] = Counter()
    for leg in schedule.legs:
        before = dates.first - leg.departure // DAY - 1
        days = [day for day in range(1, dates.count + 1) if leg.operates(before + day)]
        if not days:
            continue
        why = choice.refused(leg)
        valid = [day for day in days if leg.carrier.is_valid(before + day)]
        if len(valid) < len(days):
            left_out[SEASON] += len(days) - len(valid)
        if why and valid:
            left_out[why] += len(valid)
        elif valid:
            chosen.append((leg, before, valid))
    check_size(schedule.path, dates, chosen, choice)
    flown = [Flown(leg, choice.fleet_of(leg.type), before + day, day) for leg, before, days in chosen for day in days]
    flown.sort(key=lambda it: (it.day, it.minute, it.leg.number))
    return flown, left_out


def check_choice(schedule: Schedule, dates: Dates, choice: Choice) -> None:
    """Refuses a choice that no leg of the file can meet: several airlines of which none is named, and an airline, an aircraft type or a date
    that it doesn't have, each with those that it has."""
    airlines = list(dict.fromkeys(it.airline.strip() for it in schedule.carriers))
    if choice.airline is None and len(airlines) > 1:
        other = next(it for it in schedule.carriers if it.airline.strip() != airlines[0])
        should = f"{airlines[0]} as in line {schedule.carriers[0].number}, where --airline doesn't say which"
        raise AN_AIRLINE.fault(schedule.path, other.number, schedule.lines[other.number - 1], should)
    if choice.airline is not None and choice.airline not in airlines:
        raise Unread.of(schedule.path, f"has no airline {choice.airline}: it has {', '.join(airlines)}")
    known = {it.type for it in schedule.legs if choice.is_of(it)}
    for kind in sorted({*(choice.types or ()), *choice.families} - known):
        raise Unread.of(schedule.path, f"has no record of the aircraft type {kind}: it has {', '.join(sorted(known)) or 'none'}")
    check_dates(schedule, dates, choice)


def check_dates(schedule: Schedule, dates: Dates, choice: Choice) -> None:
    """Refuses dates that lie outside of the validity of each carrier record that is asked for, and on which no leg departs."""
    own = [it for it in schedule.carriers if choice.airline in (None, it.airline.strip())]
    last = dates.first + dates.count - 1
    if any(it.start <= last and it.end >= dates.first for it in own):
        return
    days = range(dates.first, last + 1)
    legs = (it for carrier in own for it in carrier.legs)
    if not any(it.operates(day - it.departure // DAY) and it.carrier.is_valid(day - it.departure // DAY) for it in legs for day in days):
        raise Unread.of(schedule.path, f"has no leg {dates}: it is valid {', '.join(map(str, own))}")


def check_size(path: str, dates: Dates, chosen: Sequence[Tuple[Leg, int, List[int]]], choice: Choice) -> None:
    """Refuses more legs, stations or fleets than tables may have, with the counts that help to ask for fewer. Of each leg that is chosen
    its days stand last."""
    stations: Counter[str] = Counter()
    types: Counter[str] = Counter()
    fleets: Counter[str] = Counter()
    services: Counter[str] = Counter()
    for leg, _, days in chosen:
        for code in (leg.origin, leg.destination):
            stations[code] += len(days)
        types[leg.type] += len(days)
        fleets[choice.fleet_of(leg.type)] += len(days)
        services[leg.service] += len(days)
    counts = (("legs", sum(types.values()), "legs"), ("stations", len(stations), "stations"), ("aircraft types", len(fleets), "fleets"))
    for what, count, table in counts:
        most = TABLE[f"{table}.csv"].most
        if count > most:
            ways = (("types", types), ("stations-only", stations), ("service", services))
            told = "; ".join(f"--{option}: {listed(counter)}" for option, counter in ways)
            raise Unread(f"{path}: {count:,} {what} {dates}, and tables have {most:,} at most: ask for fewer ({told})")


def listed(counter: Mapping[str, int]) -> str:
    """Returns the greatest counts, as `320 in 800 legs`."""
    return some([f"{name} {count}" for name, count in sorted(counter.items(), key=lambda it: (-it[1], it[0]))])
