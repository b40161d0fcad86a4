"""Where the lines of a fleet's tour begin, and how soon maintenance comes from there: by what `tails` tells, and by the tables."""

from typing import List, NamedTuple, Optional, Tuple

from fleetplan.calls import tails
from fleetplan.program import PROGRAM, Runner
from fleetplan.records import table_of
from fleetplan.schedule import Leg, Schedule
from fleetplan.tables import AT, headers_of
from fleetplan.times import DAY
from fleetplan.words import Call
from hints.reading import options_of_tails, schedule_of

# What a run of the program may take.
SECONDS = 5


class Start(NamedTuple):
    """A line with which an aircraft may begin: where it is as the day begins, a station or the flight that it is in, and how many nights
    pass up to the first for maintenance, that one among them."""

    place: str
    reach: int


class Tail(NamedTuple):
    """A named aircraft: the nights that it has left, and where it is, empty where that isn't told."""

    left: int
    place: str


class Tour:
    """The tour of a fleet from the line on that the first aircraft flies on the first date: of each flight the minute of its departure, and
    all its lines."""

    def __init__(self, schedule: Schedule, fleet: str, lines: List[List[str]], least_night: int) -> None:
        self.schedule, self.fleet, self.lines, self.least_night = schedule, fleet, lines, least_night
        flown = [(at, schedule.legs[it]) for at, line in enumerate(lines) for it in line]
        self.flown: List[Tuple[int, Leg]] = [(at * DAY + leg.departure % DAY, leg) for at, leg in flown]

    @property
    def minutes(self) -> int:
        """The minutes in which an aircraft comes round."""
        return len(self.lines) * DAY

    def night(self, line: int) -> Tuple[str, bool]:
        """Returns where an aircraft is as a line begins, and whether that night is for maintenance."""
        starts = line * DAY
        at = max((it for it in range(len(self.flown)) if self.flown[it][0] < starts), default=-1)
        departs, leg = self.flown[at]
        departs -= self.minutes if at < 0 else 0
        following = self.flown[(at + 1) % len(self.flown)][0]
        following += self.minutes if at + 1 == len(self.flown) else 0
        if departs + self.schedule.busy(leg, self.fleet) >= starts:
            return leg.flight, False
        return leg.end, self.schedule.maintains[leg.end] and following - departs - leg.block >= self.least_night

    def starts(self) -> List[Start]:
        """Returns the lines of the first date."""
        nights = [self.night(it) for it in range(len(self.lines))]
        found = []
        for line in range(0, len(nights), self.schedule.period):
            coming = nights[line + 1 :] + nights[: line + 1]
            found.append(Start(nights[line][0], [it for _, it in coming].index(True) + 1))
        return found


def lines_of(call: Call, fleet: str) -> List[List[str]]:
    """Returns the lines of a fleet's tour, from that of the first aircraft on the first date of a call of `due` on."""
    date = call.own.words["DATE"].form.read(call.words[1][1])
    found = tails(call.folder, date, call.value("period"), Runner(PROGRAM, SECONDS), **options_of_tails(call))
    return [line for name, lines in found.flights.items() if name.rpartition("/")[0] == fleet for line in lines]


def starts_of(call: Call, fleet: str) -> List[Start]:
    """Returns the lines with which the aircraft of a fleet may begin by a call of `due`, in the order of the tour."""
    settled = schedule_of(call).planned()[0]
    return Tour(settled, fleet, lines_of(call, fleet), call.value("least-night")).starts()


def tails_of(call: Call, fleet: str) -> List[Tail]:
    """Returns the aircraft of a fleet that tails.csv names, in its order."""
    header, rows = table_of(call.folder, "tails.csv", headers_of("tails.csv"))
    return [Tail(int(row[2]), row[3] if AT in header else "") for row in rows if row[1] == fleet]


class Stand(NamedTuple):
    """How many tails of a fleet are at a place as a day begins, and how many lines begin there."""

    place: str
    tails: int
    starts: int


def stands_of(call: Call, fleet: str, within: Optional[int] = None) -> List[Stand]:
    """Returns of each place of a fleet its tails and its lines, stations first, all in the order of their tables. Where nights are given, it
    counts tails that have so many left at most, and lines from which maintenance comes so soon."""
    schedule, starts, tails = schedule_of(call), starts_of(call, fleet), tails_of(call, fleet)
    found = []
    for place in (*schedule.extra, *schedule.legs):
        those = [it.left for it in tails if it.place == place]
        near = [it.reach for it in starts if it.place == place]
        if those or near:
            counts = (len(own) if within is None else sum(it <= within for it in own) for own in (those, near))
            found.append(Stand(place, *counts))
    return found
