"""Stations, fleets and costs of the tables, as files of the caller's say or as the schedule file has them."""

from typing import Any, Dict, List, Mapping, Optional, Sequence, Set, Tuple

from fleetplan.errors import Unread
from fleetplan.forms import TRILLION, code, name, whole
from fleetplan.records import record_of
from fleetplan.tables import HEADERS, TABLE, Header, forms_of, headers_of
from schedule_files.files import judged
from schedule_files.layout import LEG, BadLine
from schedule_files.reading import Leg, Schedule
from schedule_files.selecting import Flown

# A record of a table with its numbers, and one of costs: a leg, a fleet and what that costs.
Row = Sequence[Any]
Cost = Tuple[str, str, int]
PRICES = ("fleet", "departure", "minute", "longest", "closed")
TURN = 30


def stations_of(path: Optional[str], schedule: Schedule, flown: Sequence[Flown]) -> Sequence[Row]:
    """Returns the records of the stations that occur, by the file of the caller's or by code."""
    occurs: Dict[str, Tuple[Leg, str]] = {}
    for it in flown:
        occurs.setdefault(it.leg.origin, (it.leg, "departure station"))
        occurs.setdefault(it.leg.destination, (it.leg, "arrival station"))
    if path is None:
        return [(it, 0, "no") for it in sorted(occurs)]
    header = station_header(path)
    found = judged(path, header, forms_of("stations.csv", header))
    check_all(path, schedule, occurs, {it[0] for it in found})
    return [it for it in found if it[0] in occurs]


def extras_beside(path: Optional[str], schedule: Schedule, stations: Sequence[Row]) -> Dict[str, int]:
    """Returns the extra minutes of a turn at further stations of the schedule, those beside some, by the file of the caller's."""
    if path is None:
        return {}
    header = station_header(path)
    known = {it[0] for it in stations}
    codes = {code for leg in schedule.legs for code in (leg.origin, leg.destination)} - known
    return {it[0]: int(it[1]) for it in judged(path, header, forms_of("stations.csv", header)) if it[0] in codes}


def station_header(path: str) -> Header:
    """Returns which of its headers a caller's file of stations has, or the first."""
    first = record_of(path, 1)
    has = tuple(first.texts) if first else ()
    return has if has in headers_of("stations.csv") else HEADERS["stations.csv"]


def fleets_of(path: Optional[str], schedule: Schedule, flown: Sequence[Flown]) -> Sequence[Row]:
    """Returns the records of the fleets: those of the caller's file, or the aircraft types with no count yet."""
    occurs: Dict[str, Tuple[Leg, str]] = {}
    for it in flown:
        occurs.setdefault(it.fleet, (it.leg, "aircraft type"))
    if path is None:
        return [(it, None, TURN) for it in sorted(occurs)]
    table = TABLE["fleets.csv"]
    found = judged(path, table.header, table.forms)
    if len(found) > table.most:
        raise Unread.at(path, table.most + 2, f"{len(found)} fleets, it should be {table.most} at most")
    check_all(path, schedule, occurs, {it[0] for it in found})
    return found


def check_all(path: str, schedule: Schedule, occurs: Mapping[str, Tuple[Leg, str]], known: Set[str]) -> None:
    """Refuses a leg whose station or aircraft type a file of the caller's doesn't have."""
    for text, (leg, field) in sorted(occurs.items(), key=lambda it: it[1][0].number):
        if text not in known:
            raise LEG[field].fault(schedule.path, leg.number, schedule.lines[leg.number - 1], f"one of {path}")


class Prices:
    """What a fleet costs: a departure and a minute of block; and where it may not fly."""

    def __init__(self, row: Sequence[str]) -> None:
        self.departure, self.minute = int(row[1]), int(row[2])
        self.longest = int(row[3]) if row[3] else None
        self.closed = frozenset(row[4].split())

    def allows(self, flown: Flown) -> bool:
        """Returns whether the fleet may fly a leg."""
        is_closed = flown.leg.origin in self.closed or flown.leg.destination in self.closed
        return not is_closed and (self.longest is None or flown.block <= self.longest)

    def cost(self, flown: Flown) -> int:
        """Returns what a leg costs with the fleet."""
        return self.departure + self.minute * flown.block


def codes(text: str) -> Optional[str]:
    """Says what is wrong with stations that blanks are between, or returns None."""
    return next((wrong for wrong in map(code, text.split()) if wrong), None)


def longest(text: str) -> Optional[str]:
    """Says what is wrong with the minutes of the longest leg, or returns None."""
    return whole(0, 1439)(text) if text else None


def prices_of(path: str, fleets: Sequence[Row]) -> Dict[str, Prices]:
    """Returns the prices of each fleet by the caller's file."""
    price = whole(-TRILLION, TRILLION)
    found = {it[0]: Prices(it) for it in judged(path, PRICES, (name, price, price, longest, codes))}
    for it, *_ in fleets:
        if it not in found:
            raise Unread.of(path, f"has no record of {it}, it should have one of each fleet")
    return found


def costs_of(path: Optional[str], schedule: Schedule, flown: Sequence[Flown], fleets: Sequence[Row]) -> List[Cost]:
    """Returns the records of costs: by the caller's file, or 0 for each leg with its filed type alone."""
    if path is None:
        return [(it.name, it.fleet, 0) for it in flown]
    prices, found = prices_of(path, fleets), []
    for it in flown:
        for fleet, *_ in fleets:
            if prices[fleet].allows(it):
                cost = prices[fleet].cost(it)
                if abs(cost) > TRILLION:
                    what = f"{fleet} costs {cost} by {path}"
                    raise BadLine(schedule.path, it.leg.number, what, "bytes 44 to 61", f"{TRILLION} at most")
                found.append((it.name, fleet, cost))
    return found
