"""How many aircraft the fleets need for weeks that repeat, by the program."""

from typing import Dict, Iterator, List, Mapping, NamedTuple, Sequence, Set, Tuple

from fleetplan.forms import MOST_AIRCRAFT
from fleetplan.records import text_of
from fleetplan.tables import DATED, HEADERS, TABLE
from fleetplan.times import clock
from schedule_files import judging
from schedule_files.days import WEEK
from schedule_files.weeks import Flight, Scope, Week

# The legs and the stations that tables may have.
MOST_LEGS, MOST_STATIONS = TABLE["legs.csv"].most, TABLE["stations.csv"].most


class Needs(NamedTuple):
    """What the fleets need for a week: how many aircraft, and, where that can't be counted, why."""

    counts: Mapping[str, int]
    reasons: Mapping[str, str]


class Counter:
    """Asks the program what weeks need, each once."""

    def __init__(self, scope: Scope) -> None:
        self.scope = scope
        self.known: Dict[object, Needs] = {}

    def needs(self, week: Week) -> Needs:
        """Returns what the fleets need for a week that repeats. A fleet without a flight needs none."""
        if week.key not in self.known:
            self.known[week.key] = self._asked(week)
        return self.known[week.key]

    def _asked(self, week: Week) -> Needs:
        counts, reasons = {it: 0 for it in self.scope.fleets if it not in week.shapes}, {}
        legs = {it: len(own) for it, own in week.shapes.items()}
        for fleet, count in legs.items():
            if week.balance(fleet):
                reasons[fleet] = "arrivals aren't departures"
            elif count > MOST_LEGS:
                reasons[fleet] = f"{count:,} legs, and the program judges {MOST_LEGS:,} at most"
        for fleets in self._together([it for it in self.scope.fleets if it in legs and it not in reasons], week):
            used, why = judging.used_by(self._texts(week, fleets), fleets, WEEK)
            counts.update(used or {})
            reasons.update({it: why or "" for it in fleets if used is None})
        return Needs(counts, reasons)

    @staticmethod
    def _together(fleets: Sequence[str], week: Week) -> Iterator[List[str]]:
        """Yields fleets that fit into the tables of one call. What one needs is no matter of the others."""
        own: List[str] = []
        legs = 0
        stations: Set[str] = set()
        for fleet in fleets:
            shapes = week.shapes[fleet]
            codes = {code for _, origin, destination, _ in shapes for code in (origin, destination)}
            if own and (legs + len(shapes) > MOST_LEGS or len(stations | codes) > MOST_STATIONS or len(own) == TABLE["fleets.csv"].most):
                yield own
                own, legs, stations = [], 0, set()
            own.append(fleet)
            legs += len(shapes)
            stations |= codes
        if own:
            yield own

    def _texts(self, week: Week, fleets: Sequence[str]) -> Dict[str, str]:
        """Returns the tables and the plan of some fleets in a week, each with as many aircraft as a fleet may have."""
        flights = [(f"L{number}", it) for number, it in enumerate((it for it in week.flights if it.fleet in fleets), 1)]
        stations = sorted({code for _, it in flights for code in (it.leg.origin, it.leg.destination)})
        extras = self.scope.extras
        return {
            "stations.csv": text_of(HEADERS["stations.csv"], [(it, extras.get(it, 0), "no") for it in stations]),
            "fleets.csv": text_of(HEADERS["fleets.csv"], [(it, MOST_AIRCRAFT, self.scope.fleets[it].turn) for it in fleets]),
            "legs.csv": text_of(DATED, [(name, *way_of(week, it)) for name, it in flights]),
            "costs.csv": text_of(HEADERS["costs.csv"], [(name, it.fleet, 0) for name, it in flights]),
            "throughs.csv": text_of(HEADERS["throughs.csv"], []),
            "plan.csv": text_of(HEADERS["plan.csv"], [(name, it.fleet) for name, it in flights]),
        }


def way_of(week: Week, it: Flight) -> Tuple[int, str, str, str, str]:
    """Returns the day, the stations and the times of a flight as legs.csv has them."""
    arrives = it.departs + it.leg.arrival - it.leg.departure
    return it.day - week.first + 1, it.leg.origin, clock(it.departs), it.leg.destination, clock(arrives)
