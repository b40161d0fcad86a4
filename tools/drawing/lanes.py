"""Flights without a tour in rows: each goes on from where the one before it landed, and as few aircraft fly them as can."""

from typing import Dict, List, Tuple

from drawing.flights import Departure
from fleetplan.schedule import Leg, Schedule
from fleetplan.times import DAY


def lanes_of(schedule: Schedule, flown: List[Tuple[Leg, int]], fleet: str, days: int) -> List[List[Departure]]:
    """Returns the flights that depart on so many days, in rows. Of the aircraft that are ready at a station the one that waited longest
    goes first. Where none is there, one that stood there before the first day does, in a row of its own. Rows also begin with the
    flights that are under way when the first day begins."""
    lanes: List[List[Departure]] = []
    ready: Dict[str, List[Tuple[int, int]]] = {}
    for it in departures(schedule, flown, fleet, days):
        waiting = [pair for pair in ready.get(it.leg.start, []) if pair[0] <= it.departs]
        if waiting and it.departs >= 0:
            ready[it.leg.start].remove(min(waiting))
            lane = min(waiting)[1]
        else:
            lane = len(lanes)
            lanes.append([])
        lanes[lane].append(it)
        ready.setdefault(it.leg.end, []).append((it.ready, lane))
    return lanes


def departures(schedule: Schedule, flown: List[Tuple[Leg, int]], fleet: str, days: int) -> List[Departure]:
    """Returns the departures on so many days from the day start on, and before them those that are still under way at the first."""
    found = []
    for leg, busy in flown:
        turns = -(busy // schedule.minutes) - 1, -(-days // schedule.period)
        for turn in range(*turns):
            it = Departure(leg, fleet, leg.departure + turn * schedule.minutes, busy)
            if it.ready >= 0 and it.departs < days * DAY:
                found.append(it)
    return sorted(found, key=lambda it: (it.departs, it.leg.flight))
