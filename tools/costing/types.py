"""What a fleet costs, and where and when it may not fly."""

import re
from fractions import Fraction
from typing import List, NamedTuple, Optional, Sequence, Tuple

from costing.legs import Leg, Place
from fleetplan.forms import code, oddity, whole
from fleetplan.times import DAY, clock

TYPES = ("fleet", "seats", "departure", "minute", "fuel", "longest", "closed")
_HOURS = re.compile("([01][0-9]|2[0-3])([0-5][0-9])-([01][0-9]|2[0-3])([0-5][0-9])")


class Closing(NamedTuple):
    """A station that is closed to a fleet: always, or each day from a minute on until another one, by midnight in UTC."""

    station: str
    hours: Optional[Tuple[int, int]]

    def covers(self, station: str, minute: int) -> bool:
        """Returns whether a flight may not depart from a station, or arrive there, in a minute."""
        if station != self.station:
            return False
        if self.hours is None:
            return True
        since, until = self.hours
        return (minute - since) % DAY < (until - since) % DAY

    def __str__(self) -> str:
        hours = "" if self.hours is None else f" from {clock(self.hours[0])} to {clock(self.hours[1])}"
        return f"{self.station} is closed{hours}"


class Type(NamedTuple):
    """A fleet: its seats; what a departure, a minute of block and an hour's kilograms of fuel are; its longest block; what is closed to it."""

    fleet: str
    seats: Fraction
    departure: Fraction
    minute: Fraction
    fuel: Fraction
    longest: Optional[int]
    closed: Sequence[Closing]
    place: Place

    def refusal(self, leg: Leg, shift: int = 0) -> Optional[str]:
        """Returns why the fleet may not fly a leg that departs so many minutes later, or None where it may."""
        if self.longest is not None and leg.block > self.longest:
            return f"block {leg.block} min, longest {self.longest}"
        return self.curfew(leg, shift)

    def curfew(self, leg: Leg, shift: int = 0) -> Optional[str]:
        """Returns which station is closed to the fleet when a leg departs or arrives, or None."""
        departure = leg.departure + shift
        ends = (leg.start, departure), (leg.end, departure + leg.block)
        return next((str(it) for it in self.closed if any(it.covers(*end) for end in ends)), None)


def longest(text: str) -> Optional[str]:
    """Says what is wrong with the minutes of the longest leg, or returns None."""
    return whole(0, DAY - 1)(text) if text else None


def closings(text: str) -> Optional[str]:
    """Says what is wrong with stations that blanks are between, each with hours or without, or returns None."""
    return next((wrong for wrong in map(_closing, text.split()) if wrong), None)


def _closing(text: str) -> Optional[str]:
    """Says what is wrong with one of them, or returns None."""
    station, slash, hours = text.partition("/")
    found = _HOURS.fullmatch(hours)
    if code(station):
        return code(station)
    if slash and not found:
        return oddity(hours) or "hours that are closed are HHMM-HHMM in UTC, 0000 to 2359, as LCY/2230-0500"
    if found and found[1] + found[2] == found[3] + found[4]:
        return "hours end when they begin: for all day write the station alone"
    return None


def closings_of(text: str) -> List[Closing]:
    """Returns the stations that a text of that form closes."""
    found = []
    for station, _, hours in (it.partition("/") for it in text.split()):
        times = _HOURS.fullmatch(hours)
        spans = times and (60 * int(times[1]) + int(times[2]), 60 * int(times[3]) + int(times[4]))
        found.append(Closing(station, spans or None))
    return found


def type_of(row: Sequence[str], place: Place) -> Type:
    """Returns the fleet of a record of types.csv, whose fields all have their form."""
    fleet, *numbers, most, closed = row
    seats, departure, minute, fuel = map(Fraction, numbers)
    return Type(fleet, seats, departure, minute, fuel, int(most) if most else None, closings_of(closed), place)
