"""How a plan differs from another one: the legs whose fleet or time of departure is another, and what that costs."""

import os
from dataclasses import dataclass
from typing import Dict, List, Optional, Tuple

from fleetplan.errors import REFUSED, Unread
from fleetplan.records import table_of
from fleetplan.schedule import Plan, Schedule
from fleetplan.tables import HEADERS, NO_FLEET, SHIFTED
from fleetplan.texts import shown


@dataclass(frozen=True)
class Change:
    """A leg that another plan flies otherwise: with which fleet and when (minutes from the period's start), there and here, and its
    cost there and here, None where the tables have none."""

    flight: str
    fleets: Tuple[str, str]
    departs: Tuple[int, int]
    costs: Tuple[Optional[int], Optional[int]]

    @property
    def difference(self) -> Optional[int]:
        """By how much it costs more here."""
        there, here = self.costs
        return here - there if there is not None and here is not None else None

    @property
    def is_moved(self) -> bool:
        """Returns whether it departs at another time."""
        return self.departs[0] != self.departs[1]

    @property
    def is_refleeted(self) -> bool:
        """Returns whether another fleet flies it, or none."""
        return self.fleets[0] != self.fleets[1]


class Comparison:
    """The plan of another folder beside the one that is drawn: its changes in the order of legs.csv, the legs that one of both alone
    has, and the cost of each plan where all its legs have one."""

    def __init__(self, folder: str, here: Schedule, choice: Plan) -> None:
        self.folder = folder
        self.name = shown(os.path.basename(os.path.realpath(folder)) or folder)
        there, other = planned(folder, here)
        self.only_here = [it for it in choice if it not in other]
        self.only_there = [it for it in other if it not in choice]
        both = [it for it in choice if it in other]
        self.common = len(both)
        compared = (change(flight, (there, here), (other[flight], choice[flight])) for flight in both)
        self.changes = [it for it in compared if it.is_moved or it.is_refleeted]
        self.by_flight: Dict[str, Change] = {it.flight: it for it in self.changes}
        self.cost = total(there, other)

    @property
    def moved(self) -> List[Change]:
        """The legs that depart at another time."""
        return [it for it in self.changes if it.is_moved]

    @property
    def refleeted(self) -> List[Change]:
        """The legs with another fleet."""
        return [it for it in self.changes if it.is_refleeted]

    @property
    def difference(self) -> Optional[int]:
        """By how much the changed legs cost more here, where each has a cost in both."""
        found = [it.difference for it in self.changes]
        return None if None in found else sum(it for it in found if it is not None)


def planned(folder: str, here: Schedule) -> Tuple[Schedule, Plan]:
    """Returns the schedule and the plan of another folder. Its plan.csv says whether it has shifts; legs may be left out where the other
    schedule allows that and the folder has optional.csv."""
    header = table_of(folder, "plan.csv", (HEADERS["plan.csv"], SHIFTED))[0]
    asked = ["windows"] if header == SHIFTED else []
    if "optional" in here.asked and os.path.lexists(os.path.join(folder, "optional.csv")):
        asked.append("optional")
    found = Schedule(folder, here.day_start, here.period, asked).planned()
    if not set(found[0].legs) & set(here.legs):
        raise Unread.of(folder, f"has no flight of {here.folder}", REFUSED)
    return found


def change(flight: str, schedules: Tuple[Schedule, Schedule], fleets: Tuple[str, str]) -> Change:
    """Returns how a flight differs in two plans."""
    departs = tuple(it.legs[flight].departure for it in schedules)
    if NO_FLEET in fleets:
        departs = (departs[1], departs[1])
    costs = tuple(it.cost.get((flight, fleet)) for it, fleet in zip(schedules, fleets))
    return Change(flight, fleets, (departs[0], departs[1]), (costs[0], costs[1]))


def total(schedule: Schedule, choice: Plan) -> Optional[int]:
    """Returns what a plan costs, or None where a leg has no cost."""
    costs = [schedule.cost.get(it) for it in choice.items()]
    return None if None in costs else sum(it for it in costs if it is not None)
