"""Where an aircraft is missing: the flights of a fleet walked through in their order, with as few aircraft as they need."""

from collections import Counter
from typing import Dict, List, NamedTuple, Optional, Sequence, Tuple

from fleetplan.times import DAY, clock
from schedule_files.days import WEEK, iso
from schedule_files.reading import Leg
from schedule_files.weeks import Flight, Week


class Place(NamedTuple):
    """A departure for which no aircraft is on the ground: the last flight before it whose aircraft was ready there, and the next one behind
    it, each None where there is none."""

    flight: Flight
    before: Optional[Flight]
    behind: Optional[Flight]

    def __str__(self) -> str:
        station = self.flight.leg.origin
        sides = [f"{called(it.leg)} is ready there at {moment(it.ready)}" for it in (self.before, self.behind) if it]
        told = f"; {', and '.join(sides)}" if sides else ", and none comes there"
        return f"at {station} on {moment(self.flight.departs)} no aircraft is there for {called(self.flight.leg)}{told}"


def called(leg: Leg) -> str:
    """Returns a leg as its flight is called, with its sequence where it isn't the first one."""
    return f"{leg.airline.strip()}{leg.flight}{leg.suffix.strip()}{f' leg {leg.sequence}' if leg.sequence > 1 else ''}"


def moment(minute: int) -> str:
    """Returns a minute as its date and its time in UTC."""
    return f"{iso(minute // DAY)} {clock(minute)}"


def places(flights: Sequence[Flight], start: int, earlier: Sequence[Flight] = ()) -> List[Place]:
    """Returns the departures for which a further aircraft has to stand at their station from a minute on, in their order. Of earlier flights
    those that are in the air or in their turn then come to the ground as they are ready. An aircraft may depart in the minute in which it is
    ready."""
    aloft = aloft_at(start, earlier)
    last = {it.leg.destination: it for it in sorted(earlier, key=lambda it: it.ready) if it.ready < start}
    events: List[Tuple[int, int, Flight]] = [(it.ready, 0, it) for it in (*aloft, *flights)]
    events += [(it.departs, 1, it) for it in flights]
    events.sort(key=lambda it: it[:2])
    stands: Dict[str, int] = Counter()
    found: List[Place] = []
    waiting: Dict[str, List[int]] = {}
    for _, departs, it in events:
        if not departs:
            station = it.leg.destination
            stands[station] += 1
            last[station] = it
            for at in waiting.pop(station, ()):
                found[at] = found[at]._replace(behind=it)
        elif stands[it.leg.origin]:
            stands[it.leg.origin] -= 1
        else:
            waiting.setdefault(it.leg.origin, []).append(len(found))
            found.append(Place(it, last.get(it.leg.origin), None))
    return found


def aloft_at(minute: int, flights: Sequence[Flight]) -> List[Flight]:
    """Returns the flights that have departed before a minute, and whose aircraft aren't ready before it."""
    return [it for it in flights if it.departs < minute <= it.ready]


class Walk:
    """The aircraft that flights of a fleet need from a minute on: those of earlier flights in the air or in their turn then, and those at
    stations."""

    def __init__(self, flights: Sequence[Flight], start: int, earlier: Sequence[Flight]) -> None:
        self.aloft, self.places = len(aloft_at(start, earlier)), places(flights, start, earlier)

    @property
    def need(self) -> int:
        """How many aircraft are needed."""
        return self.aloft + len(self.places)

    def beyond(self, most: int) -> Optional[Place]:
        """Returns the first place where more than so many aircraft are needed, or None where there is none."""
        return self.places[max(0, most - self.aloft)] if self.need > most and self.places else None

    def at_stations(self) -> Dict[str, int]:
        """Returns how many aircraft stand at each station at first."""
        return Counter(it.flight.leg.origin for it in self.places)


def repeated(week: Week, fleet: str, code: Optional[str] = None) -> Walk:
    """Returns what a fleet needs for a week that repeats, or one aircraft type of it alone."""
    flights = [it for it in week.of(fleet) if code in (None, it.leg.type)]
    return Walk(flights, DAY * week.first, [it.later(-WEEK) for it in flights])


def unbalanced_place(week: Week, fleet: str) -> Optional[Place]:
    """Returns the first departure for which no aircraft is there when a week comes again, or None where each has one."""
    flights = week.of(fleet)
    found = places([*flights, *(it.later(WEEK) for it in flights)], DAY * week.first, [it.later(-WEEK) for it in flights])
    return next((it for it in found if it.flight.day >= week.first + WEEK), None)
