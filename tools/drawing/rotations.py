"""The tour of each fleet as departures that follow each other, as rotation.csv or the program's `tails` tells it."""

import os
from dataclasses import dataclass, field
from typing import Dict, List, Optional, Tuple

from drawing.flights import Departure
from fleetplan import rotations
from fleetplan.schedule import Plan, Schedule


@dataclass
class Rotation:
    """What became of a fleet's rotation: in words, its days and its tour (none and empty where there is no tour), whether that keeps the
    chosen through pairs, and those that it keeps."""

    fleet: str
    words: str
    days: int = 0
    tour: List[Departure] = field(default_factory=list)
    keeps: bool = True
    ties: List[Tuple[str, str]] = field(default_factory=list)


def rotations_of(schedule: Schedule, plan: Plan, given: Optional[int]) -> Tuple[Dict[str, Rotation], int]:
    """Returns what rotation.csv says of each fleet, nothing where there is none, and how many minutes a stay lasts whose nights are for
    maintenance: the given ones, or else the least by rotation.csv. Raises Unread where that isn't of this plan, or isn't by the given ones."""
    path = os.path.join(schedule.folder, "rotation.csv")
    if not os.path.lexists(path):
        return {}, given or 0
    read = rotations.rotations_of(schedule, plan)
    if given is not None and not rotations.is_by_least_night(read, given):
        rotations.refuse(path, f"isn't by nights of {given} minutes: give the --least-night of solve")
    found = {}
    for it in read:
        tour = laid(schedule, it.fleet, [flown.leg.flight for flown in it.tour])
        found[it.fleet] = Rotation(it.fleet, it.words, it.days, tour, it.keeps, it.pairs if tour and it.keeps else [])
    return found, rotations.least_night_of(read) if given is None else given


def tour_of(schedule: Schedule, fleet: str, flights: List[str], days: int) -> Rotation:
    """Returns the rotation of a fleet that flies these flights in this order, in so many days."""
    return Rotation(fleet, rotations.told("tour", str(days), str(len(flights))), days, laid(schedule, fleet, flights))


def laid(schedule: Schedule, fleet: str, flights: List[str]) -> List[Departure]:
    """Returns the flights of a tour in their order, each as soon after the one before as its aircraft is ready. The first departs on its
    own day of the period."""
    tour: List[Departure] = []
    for flight in flights:
        leg = schedule.legs[flight]
        departs = leg.departure
        if tour:
            departs = tour[-1].ready + (departs - tour[-1].ready) % schedule.minutes
        tour.append(Departure(leg, fleet, departs, schedule.busy(leg, fleet)))
    return tour
