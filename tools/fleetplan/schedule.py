"""A schedule as its tables tell it, in minutes from the day start of its first day, and what a plan of it uses."""

from __future__ import annotations

import copy
import os
from collections import defaultdict
from itertools import accumulate
from typing import Dict, Iterable, List, Mapping, Sequence, Tuple

from fleetplan.errors import Unread
from fleetplan.files import told_of, write_all
from fleetplan.records import Rows, table_of, text_of
from fleetplan.tables import ASKED, DATED, HEADERS, LIMITED, NO_FLEET, NO_LIMIT, SHIFTED, TABLE, TABLES, Header, forms_of, headers_of
from fleetplan.times import DAY, clock, minute_of


class Leg:
    """A flight: its day, from where to where, its minute of departure from the first day's start, and its minutes in the air. A departure
    on the first day before its start is one at the end of the period."""

    def __init__(self, row: Sequence[str], day_start: int, period: int) -> None:
        self.flight, day, self.start, self.dep, self.end, self.arr = row
        self.day, dep, arr = int(day), minute_of(self.dep), minute_of(self.arr)
        self.departure = (DAY * (self.day - 1) + dep - day_start) % (DAY * period)
        self.block = (arr - dep) % DAY
        self.shift = 0

    def moved(self, shift: int, minutes: int) -> Leg:
        """Returns the flight by so many minutes later, in a period of so many."""
        later = copy.copy(self)
        later.shift, later.departure = shift, (self.departure + shift) % minutes
        return later


# Legs, each with the minutes from its departure until an aircraft is ready again.
Flown = Iterable[Tuple[Leg, int]]
# Of each flight its fleet, or NO_FLEET.
Plan = Dict[str, str]


class Schedule:
    """The tables of a folder. Each name is a key: `extra`, `maintains` and `parking` of stations, `aircraft` and `turn` of fleets, `legs` of
    flights, `cost` of pairs of flight and fleet, `fleets_of` of flights, `throughs` of pairs of flights. It repeats after `period` days of so
    many `minutes`. Where they are asked for, `extras` are the costs of each shift of a flight, and `skips` those of leaving flights out."""

    def __init__(self, folder: str, day_start: int, period: int = 1, asked: Sequence[str] = ()) -> None:
        self.asked = tuple(asked)
        rows = {it: _checked(folder, it, period) for it in (*TABLES, *(ASKED[it] for it in self.asked))}
        self.folder, self.day_start, self.period, self.minutes = folder, day_start, period, DAY * period
        self.extra = {code: int(extra) for code, extra, *_ in rows["stations.csv"]}
        self.maintains = {code: flag == "yes" for code, _, flag, *_ in rows["stations.csv"]}
        self.parking = {code: int(limit) for code, _, _, *limits in rows["stations.csv"] for limit in limits if limit != NO_LIMIT}
        self.aircraft = {name: int(number) for name, number, _ in rows["fleets.csv"]}
        self.turn = {name: int(minutes) for name, _, minutes in rows["fleets.csv"]}
        self.legs = {row[0]: Leg(row, day_start, period) for row in rows["legs.csv"]}
        self.cost = {(flight, fleet): int(cost) for flight, fleet, cost in rows["costs.csv"]}
        self.throughs = {(into, out): int(value) for into, out, value in rows["throughs.csv"]}
        self.fleets_of: Dict[str, List[str]] = {it: [] for it in self.legs}
        for flight, fleet in self.cost:
            if flight not in self.legs or fleet not in self.aircraft:
                raise self._unknown("costs.csv", f"{flight},{fleet} isn't a flight and a fleet")
            self.fleets_of[flight].append(fleet)
        self.extras = {it: {0: 0} for it in self.legs}
        for flight, shift, extra in rows.get("windows.csv", ()):
            self._want_flight("windows.csv", flight)
            self.extras[flight][int(shift)] = int(extra)
        self.skips = {flight: int(skip) for flight, skip in rows.get("optional.csv", ())}
        for flight in self.skips:
            self._want_flight("optional.csv", flight)
        for leg in self.legs.values():
            if leg.start not in self.extra or leg.end not in self.extra or leg.block == 0 or leg.start == leg.end:
                raise _fault(folder, "legs.csv", f"{leg.flight} isn't a flight between two stations of stations.csv")

    @classmethod
    def read(cls, folder: str, day_start: str = "03:00", period: int = 1, windows: bool = False, optional: bool = False) -> Schedule:
        """Returns the schedule of a folder, whose day starts at HH:MM in UTC and which repeats after so many days; with windows.csv and
        optional.csv where they are asked for. It raises Unread where a table doesn't read, and ValueError where a time has no such form."""
        asked = [it for it, is_asked in (("windows", windows), ("optional", optional)) if is_asked]
        return cls(folder, minute_of(day_start), period, asked)

    def rows(self) -> Dict[str, Tuple[Header, Rows]]:
        """Returns the tables as they stand now, each with its header. What belongs to a flight that `legs` hasn't is left out."""
        has_days = self.period > 1
        room = [] if not self.parking else [{it: str(self.parking.get(it, NO_LIMIT)) for it in self.extra}]
        own: Dict[str, Iterable[Sequence[object]]] = {
            "stations.csv": [
                (it, extra, "yes" if self.maintains[it] else "no", *(limits[it] for limits in room)) for it, extra in self.extra.items()
            ],
            "fleets.csv": [(it, number, self.turn[it]) for it, number in self.aircraft.items()],
            "legs.csv": [
                (it.flight, *([it.day] if has_days else []), it.start, it.dep, it.end, it.arr) for it in self.legs.values()
            ],
            "costs.csv": [(flight, fleet, cost) for (flight, fleet), cost in self.cost.items() if flight in self.legs and fleet != NO_FLEET],
            "throughs.csv": [(*pair, value) for pair, value in self.throughs.items() if self.legs.keys() >= set(pair)],
            "windows.csv": [(it, shift, more) for it in self.legs for shift, more in self.extras[it].items() if shift],
            "optional.csv": [(it, skip) for it, skip in self.skips.items() if it in self.legs],
        }
        headers = {**HEADERS, **({"stations.csv": LIMITED} if room else {}), **({"legs.csv": DATED} if has_days else {})}
        names = (*TABLES, *(ASKED[it] for it in self.asked))
        return {it: (headers[it], [[str(field) for field in row] for row in own[it]]) for it in names}

    def write(self, folder: str) -> None:
        """Writes the tables into a folder, each whole or not at all, and makes it where it isn't there. It raises Unread where one can't be
        written."""
        with told_of(folder):
            os.makedirs(folder, exist_ok=True)
            write_all(folder, {name: text_of(header, rows) for name, (header, rows) in self.rows().items()})

    def _unknown(self, table: str, what: str) -> Unread:
        return _fault(self.folder, table, f"{what} of the tables")

    def _want_flight(self, table: str, flight: str) -> None:
        if flight not in self.legs:
            raise self._unknown(table, f"{flight} is no flight")

    @property
    def must(self) -> List[Leg]:
        """The flights that may not be left out."""
        return [it for it in self.legs.values() if it.flight not in self.skips]

    def busy(self, leg: Leg, fleet: str) -> int:
        """Returns the minutes from departure until an aircraft of the fleet is ready again."""
        return leg.block + self.turn[fleet] + self.extra[leg.end]

    def clock(self, minute: int) -> str:
        """Returns the clock time of a minute counted from a day's start."""
        return clock(minute + self.day_start)

    def moment(self, minute: int) -> str:
        """Returns the clock time of a minute counted from the first day's start, with its day where the period has several."""
        day = (minute + self.day_start) % self.minutes // DAY + 1
        return self.clock(minute) if self.period == 1 else f"{self.clock(minute)} on day {day}"

    @property
    def each(self) -> str:
        """The words for how often the schedule repeats."""
        return "each day" if self.period == 1 else f"every {self.period} days"

    def planned(self) -> Tuple[Schedule, Plan]:
        """Returns the schedule in which each flight departs when plan.csv says, at its cost then, and the fleet of each flight (`-` of one
        that is left out); or raises Unread where it isn't a plan of these tables."""
        rows = table_of(self.folder, "plan.csv", (SHIFTED if "windows" in self.asked else HEADERS["plan.csv"],))[1]
        if [it[0] for it in rows] != list(self.legs):
            raise Unread.of(os.path.join(self.folder, "plan.csv"), "doesn't tell the flights of legs.csv in their order")
        fleets = (*self.aircraft, NO_FLEET) if "optional" in self.asked else tuple(self.aircraft)
        settled = copy.copy(self)
        settled.legs, settled.cost = dict(self.legs), dict(self.cost)
        for flight, fleet, *shifts in rows:
            if fleet not in fleets:
                raise _fault(self.folder, "plan.csv", f"{fleet} is no fleet of fleets.csv")
            shift = next((it for it in self.extras[flight] if [str(it)] == shifts), None) if shifts else 0
            if shift is None or shift and fleet == NO_FLEET:
                raise _fault(self.folder, "plan.csv", f"{shifts[0]} is no shift of {flight}")
            settled.legs[flight] = self.legs[flight].moved(shift, self.minutes)
            for it in self.fleets_of[flight]:
                settled.cost[flight, it] += self.extras[flight][shift]
        settled.cost.update({(flight, NO_FLEET): skip for flight, skip in self.skips.items()})
        return settled, {it[0]: it[1] for it in rows}

    def changes(self, flown: Flown) -> Dict[str, Dict[int, int]]:
        """Returns by how many the aircraft that stand at each station become more or fewer in each minute in which these flights depart there
        or their aircraft become ready."""
        found: Dict[str, Dict[int, int]] = {it: defaultdict(int) for it in self.extra}
        for leg, busy in flown:
            found[leg.start][leg.departure] -= 1
            found[leg.end][(leg.departure + busy) % self.minutes] += 1
        return found

    def needs(self, flown: Flown) -> Dict[str, int]:
        """Returns how many aircraft these flights want at the day start at each station."""
        return {station: lacking(own) for station, own in self.changes(flown).items()}

    def stands(self, flown: Flown, station: str, day: int) -> int:
        """Returns how many aircraft of these flights are on the ground at a station at the end of a day."""
        own = self.changes(flown)[station]
        return lacking(own) + sum(change for minute, change in own.items() if minute < DAY * day)

    def used(self, flown: Flown) -> int:
        """Returns how many aircraft these flights use: those at stations at the first day's start, and those aloft or in a turn then."""
        flown = list(flown)
        return sum(self.needs(flown).values()) + sum((leg.departure + busy) // self.minutes for leg, busy in flown)

    def flown_by(self, plan: Plan, fleet: str) -> List[Tuple[Leg, int]]:
        """Returns the fleet's flights by a plan, each with its minutes until the aircraft is ready."""
        return [(leg, self.busy(leg, fleet)) for leg in self.legs.values() if plan[leg.flight] == fleet]


def lacking(changes: Mapping[int, int]) -> int:
    """Returns how many aircraft have to stand at a station before the first minute, so that none ever lacks, by the changes of each minute."""
    return -min(accumulate((changes[minute] for minute in sorted(changes)), initial=0))


def _fault(folder: str, table: str, what: str) -> Unread:
    path = os.path.join(folder, table)
    return Unread(f"{path}: {what}", file=path)


def _checked(folder: str, name: str, period: int) -> Rows:
    """Returns the records of a table whose fields all have their form, each flight with its day."""
    header, rows = table_of(folder, name, headers_of(name, period))
    if len(rows) > TABLE[name].most_read:
        raise Unread.of(os.path.join(folder, name), f"has {len(rows)} records, and may have {TABLE[name].most_read}")
    forms = forms_of(name, header, period)
    for number, row in enumerate(rows, 2):
        for column, text, wrong in zip(header, row, forms):
            why = wrong(text)
            if why:
                path = os.path.join(folder, name)
                raise Unread(f"{path}: {','.join(row)}: {why}", file=path, record=number, column=column)
    if len({tuple(it[: TABLE[name].keys]) for it in rows}) != len(rows):
        raise Unread.of(os.path.join(folder, name), "has a record twice")
    return rows if name != "legs.csv" or header == DATED else [[row[0], "1", *row[1:]] for row in rows]
