"""A plan as it is drawn: the schedule at its times, each fleet with its rows of aircraft, and what the program says of it."""

import copy
import datetime
import os
from dataclasses import dataclass, field, replace
from typing import Dict, List, NoReturn, Optional, Sequence, Tuple

from drawing.asking import Asker, Proof
from drawing.calendars import Calendar
from drawing.compared import Change, Comparison
from drawing.flights import Chain, Ground, Window, nights, unrolled, waits, window
from drawing.lanes import lanes_of
from drawing.rotations import Rotation, laid, rotations_of, tour_of
from drawing.zones import zones_of
from fleetplan import schedule
from fleetplan.calls import Roster
from fleetplan.errors import FAULT, Unread
from fleetplan.records import rows_of
from fleetplan.rotations import refuse
from fleetplan.schedule import Schedule
from fleetplan.tables import NO_FLEET
from fleetplan.texts import counted, shown
from fleetplan.times import DAY
from fleetplan.words import MOST_DATES

# The most flights that are drawn, each on each of its dates, and the status for words that ask for more.
MOST_DRAWN, TOO_MUCH = 10_000, 2


@dataclass(frozen=True)
class Row:
    """A row of a chart: what stands beside it, what an aircraft does in it, and the minute of the calendar that it begins with."""

    name: str
    below: str
    window: Window
    start: int = 0


@dataclass
class Fleet:
    """A fleet that flies: what became of its rotation, its rows with one aircraft each, and its rows with one day each."""

    name: str
    has: int
    used: int
    words: Optional[str]
    rotation: Optional[Rotation]
    rows: List[Row] = field(default_factory=list)
    by_day: List[Row] = field(default_factory=list)
    # Why `due` gives no line to its aircraft.
    cause: Optional[str] = None

    @property
    def ties(self) -> List[Tuple[str, str]]:
        """The through pairs that its tour keeps."""
        return self.rotation.ties if self.rotation else []

    @property
    def has_tour(self) -> bool:
        """Whether it has a tour."""
        return bool(self.rotation and self.rotation.tour)

    @property
    def has_lanes(self) -> bool:
        """Whether its rows are no lines of a tour."""
        return self.cause is not None or not self.has_tour

    @property
    def spare(self) -> int:
        """The aircraft beyond those used."""
        return max(0, self.has - self.used)

    def idle(self) -> List[Tuple[str, str]]:
        """Returns the aircraft that depart nowhere in the chart, each with the station where it stands."""
        still = [row for row in self.rows if not list(row.window.departing())]
        return [(row.name, row.window.grounds[-1].station) for row in still if row.window.grounds]

    def nights(self) -> List[Optional[Ground]]:
        """Returns where its aircraft pass the nights of the chart: on the ground, or aloft (None)."""
        return [it for row in self.rows for it in nights(row.window)]

    def waits(self) -> List[int]:
        """Returns the minutes beyond the needed turns, between two flights of one day."""
        return [it for row in self.rows for it in waits(row.window)]


def begun_later(schedule: Schedule, days: int) -> Schedule:
    """Returns the same schedule with its minutes counted from a day so many days later, round the period."""
    later = copy.copy(schedule)
    later.legs = {flight: copy.copy(leg) for flight, leg in schedule.legs.items()}
    for leg in later.legs.values():
        leg.departure = (leg.departure - DAY * days) % schedule.minutes
    return later


@dataclass(frozen=True)
class Wanted:
    """What a call of tools/draw asks for."""

    folder: str
    day_start: int
    period: int
    asked: Sequence[str]
    first: Optional[datetime.date] = None
    dates: Optional[int] = None
    against: Optional[str] = None
    has_sizes: bool = False
    least_night: Optional[int] = None
    # How many days the first date lies behind day 1 of the period.
    passed: int = 0


class Plan:
    """What is drawn."""

    def __init__(self, wanted: Wanted, asker: Asker) -> None:
        self.wanted, self.asker = wanted, asker
        self.folder = wanted.folder
        self.name = shown(os.path.basename(os.path.realpath(wanted.folder)) or wanted.folder)
        self.filed = Schedule(wanted.folder, wanted.day_start, wanted.period, wanted.asked)
        if not os.path.lexists(os.path.join(wanted.folder, "plan.csv")):
            why = f"is missing: ./fleetplan solve {wanted.folder} writes it, where there is a plan"
            raise Unread.of(os.path.join(wanted.folder, "plan.csv"), why, FAULT)
        self.schedule: Schedule
        self.choice: schedule.Plan
        self.schedule, self.choice = self.filed.planned()
        self.refuse_unpriced()
        self.days = wanted.dates or wanted.period
        if len(self.choice) * self.days // wanted.period > MOST_DRAWN:
            raise Unread(f"{len(self.choice)} flights on {self.days} dates are too many to draw: give fewer --dates", TOO_MUCH)
        self.calendar = Calendar(wanted.day_start, wanted.period, self.days, wanted.first)
        self.zones = zones_of(wanted.folder)
        self.rotations, self.least_night = rotations_of(self.schedule, self.choice, wanted.least_night)
        self.comparison = Comparison(wanted.against, self.schedule, self.choice) if wanted.against else None
        self.schedule = begun_later(self.schedule, wanted.passed)
        self.fleets = self.fleets_drawn()
        self.proof: Optional[Proof] = asker.proof()
        self.verdict: Optional[str] = None if self.proof else asker.verdict()

    def refuse_unpriced(self) -> None:
        """Refuses a plan with a pair that has no cost."""
        for flight, it in self.choice.items():
            if (flight, it) not in self.schedule.cost:
                why = f"{flight} may not be left out" if it == NO_FLEET else f"{it} may not fly {flight}"
                refuse(os.path.join(self.folder, "plan.csv"), f"isn't legal: {why}")

    @property
    def cost(self) -> int:
        """What the plan costs in a period."""
        return sum(self.schedule.cost[it] for it in self.choice.items())

    def is_maintained(self, ground: Ground) -> bool:
        """Returns whether nights on the ground are for maintenance."""
        return self.schedule.maintains[ground.station] and not ground.is_short(self.least_night)

    @property
    def left_out(self) -> List[str]:
        """The flights that are left out."""
        return [flight for flight, fleet in self.choice.items() if fleet == NO_FLEET]

    def change_of(self, flight: str) -> Optional[Change]:
        """Returns how a flight differs from the other plan, where there is one and it does."""
        return self.comparison.by_flight.get(flight) if self.comparison else None

    @property
    def has_days(self) -> bool:
        """Whether what is drawn day by day differs from the rows of aircraft."""
        return self.days > 1

    def flown_by(self, fleet: str) -> List[str]:
        """Returns the flights that a fleet flies."""
        return [flight for flight, it in self.choice.items() if it == fleet]

    def fleets_drawn(self) -> List[Fleet]:
        """Returns the fleets with a flight, each with its rows."""
        lines = self.dated_lines()
        found = []
        for name in self.schedule.aircraft:
            flown = self.schedule.flown_by(self.choice, name)
            if not flown:
                continue
            rotation = self.rotations.get(name)
            it = Fleet(name, self.schedule.aircraft[name], self.schedule.used(flown), None, rotation)
            it.words = rotation.words if rotation else None
            if lines:
                self.lay_dates(it, *lines)
            elif rotation and rotation.tour:
                self.lay_tour(it, rotation)
            if not it.rows:
                self.lay_lanes(it)
            found.append(it)
        return found

    def lay_tour(self, fleet: Fleet, rotation: Rotation) -> None:
        """Gives a fleet a row for each aircraft of its tour, through a period."""
        chain = unrolled(rotation.tour, rotation.days * DAY, rotation.days * DAY)
        period, minutes = self.wanted.period, self.schedule.minutes
        for at in range(rotation.days // period):
            below = f"day {at + 1} of {rotation.days}" if period == 1 else ""
            fleet.rows.append(Row(f"{fleet.name}/{at + 1}", below, window(chain, at * minutes, minutes)))
        self.lay_days(fleet, rotation)

    def lay_days(self, fleet: Fleet, rotation: Rotation) -> None:
        """Gives a fleet a row for each day of its tour, where its rows of aircraft hold more than a day."""
        period = self.wanted.period
        if not self.has_days:
            return
        chain = unrolled(rotation.tour, rotation.days * DAY, rotation.days * DAY)
        for day in range(rotation.days):
            name = f"day {(day + self.wanted.passed) % period + 1}" if period > 1 else f"day {day + 1}"
            below = f"{fleet.name}/{day // period + 1}" if period > 1 else ""
            fleet.by_day.append(Row(name, below, window(chain, day * DAY, DAY), day % period * DAY))

    def lay_lanes(self, fleet: Fleet) -> None:
        """Gives a fleet without a tour rows in which each flight goes on from where the one before it landed."""
        flown = self.schedule.flown_by(self.choice, fleet.name)
        lanes = [Chain(it) for it in lanes_of(self.schedule, flown, fleet.name, self.days)]
        for at, chain in enumerate(lanes):
            fleet.rows.append(Row(f"row {at + 1}", "", window(chain, 0, self.days * DAY)))
        if not self.has_days or fleet.by_day:
            return
        for at, chain in enumerate(lanes):
            for day in range(self.days):
                row = Row(self.calendar.named(day), f"row {at + 1}", window(chain, day * DAY, DAY), day * DAY)
                if row.window.flights:
                    fleet.by_day.append(row)

    def dated_lines(self) -> Optional[Tuple[Roster, Optional[Roster]]]:
        """Returns what `tails` says of the dates that are asked for, and `due` where there is tails.csv."""
        if self.wanted.first is None:
            return None
        tours = [it.days for it in self.rotations.values()]
        dates = min(MOST_DATES, max([self.days, self.wanted.period, *tours]))
        tails = self.asker.lines("tails", self.wanted.first, dates)
        return tails, self.asker.lines("due", self.wanted.first, dates) if self.asker.has("tails.csv") else None

    def lay_dates(self, fleet: Fleet, tails: Roster, due: Optional[Roster]) -> None:
        """Gives a fleet a row for each aircraft, as `tails` or `due` tells who flies what; or the cause why there is none."""
        lines = {name: it for name, it in tails.flights.items() if name.rpartition("/")[0] == fleet.name}
        if not lines:
            if fleet.has_tour:
                self.refuse_tour(fleet)
            fleet.words = tails.causes.get(fleet.name)
            return
        rotation = self.tour_by(fleet, list(lines.values()))
        fleet.rotation, fleet.words = rotation, fleet.words or rotation.words
        self.lay_days(fleet, rotation)
        named, below = {name: name for name in lines}, {}
        if due is not None:
            fleet.cause = due.causes.get(fleet.name)
            below = self.nights_left(fleet.name)
            named = self.starts(list(below), lines, due) if fleet.cause is None else {}
        chain = unrolled(rotation.tour, rotation.days * DAY, (rotation.days + self.days) * DAY)
        starts = {name: at * self.schedule.minutes for at, name in enumerate(lines)}
        for name, line in named.items():
            fleet.rows.append(Row(name, below.get(name, ""), window(chain, starts[line], self.days * DAY)))

    def nights_left(self, fleet: str) -> Dict[str, str]:
        """Returns the aircraft of a fleet in the order of tails.csv, and what stands below the name of each."""
        rows = rows_of(self.folder, "tails.csv")
        return {tail: f"{counted(int(left), 'night')} left" for tail, kind, left, *_ in rows if kind == fleet}

    def tour_by(self, fleet: Fleet, lines: List[List[List[str]]]) -> Rotation:
        """Returns the tour whose lines `tails` tells, and refuses one that rotation.csv doesn't have."""
        period = self.wanted.period
        names = [flight for line in lines for flights in line[:period] for flight in flights]
        found = fleet.rotation
        if not found:
            return tour_of(self.schedule, fleet.name, names, len(lines) * period)
        own = [it.leg.flight for it in found.tour]
        if own != names and not (self.wanted.passed and any(own[at:] + own[:at] == names for at in range(len(own)))):
            self.refuse_tour(fleet)
        return replace(found, tour=laid(self.schedule, fleet.name, names))

    def refuse_tour(self, fleet: Fleet) -> NoReturn:
        """Refuses dates whose tours aren't those of rotation.csv."""
        path = os.path.join(self.folder, "rotation.csv")
        refuse(path, f"has another tour of {fleet.name} than tails: give --days, --least-night, --visits and --through-max of solve")

    @staticmethod
    def starts(tails: Sequence[str], lines: Dict[str, List[List[str]]], due: Roster) -> Dict[str, str]:
        """Returns of each named aircraft the line of `tails` that it begins with. Lines that are equal on all dates take their turns."""
        free = dict(lines)
        found = {}
        for tail in tails:
            line = next((name for name, it in free.items() if it == due.flights.get(tail)), None)
            if line is None:
                raise Unread(f"due gives {tail} a line that tails doesn't have", FAULT)
            del free[line]
            found[tail] = line
        return found
