"""The lines of a schedule's fleet assignment, without the program.

A schedule is that of a folder. Its day starts at 03:00, and all fleets may fly each leg; where legs have a day it repeats after the
last of these. Its lines are those of fleet assignment: each leg is flown once, aircraft that come to a node of the time line leave
it again, and a fleet uses no more aircraft than it has.
"""

import itertools
from typing import Callable, Dict, Iterable, Iterator, List, NamedTuple, Optional, Sequence, Tuple

import schedules
from shared import DAY_START, Place, rows

from fleetplan.times import DAY, minute_of

START = minute_of(DAY_START)
# A leg (from, departure, to, minutes without the turn, costs by fleet), and what is read of tables.
Leg = Tuple[int, int, int, int, List[int]]
Read = Tuple[List[Tuple[int, int]], List[Leg], int]
Goes = Callable[[List[int], int, List[int], List[int], int], bool]


def read(folder: Place) -> Read:
    """The fleets (aircraft, turn), the legs (from, departure, to, minutes without the turn, costs by fleet), each of which all
    fleets may fly, and the number of stations of a folder's tables. The schedule repeats after `schedules.period_of` days."""
    period = DAY * schedules.period_of(folder)
    stations, fleets, flights, pairs = (rows(folder, name) for name in ("stations.csv", "fleets.csv", "legs.csv", "costs.csv"))
    place = {row["code"]: at for at, row in enumerate(stations)}
    costs: Dict[str, List[int]] = {row["flight"]: [] for row in flights}
    for pair in pairs:
        costs[pair["flight"]].append(int(pair["cost"]))
    made = [
        (
            place[row["from"]],
            (DAY * (int(row.get("day", 1)) - 1) + minute_of(row["dep"]) - START) % period,
            place[row["to"]],
            (minute_of(row["arr"]) - minute_of(row["dep"])) % DAY + int(stations[place[row["to"]]]["extra"]),
            costs[row["flight"]],
        )
        for row in flights
    ]
    return [(int(row["aircraft"]), int(row["turn"])) for row in fleets], made, len(stations)


def nodes_of(departures: Sequence[int], readies: Sequence[int]) -> List[int]:
    """The first minutes of a time line's nodes."""
    if not departures and not readies:
        return []
    starts = [0]
    for ready in sorted(set(readies)):
        if any(starts[-1] <= departure < ready for departure in departures):
            starts.append(ready)
    return starts


def node_at(starts: Sequence[int], minute: int) -> int:
    """The node in which a minute lies."""
    return max(k for k, start in enumerate(starts) if start <= minute)


class Pair(NamedTuple):
    """A leg with a fleet: its stations, its departure, the minute at which it is ready again, the laps until then, and its cost."""

    leg: int
    fleet: int
    origin: int
    departure: int
    target: int
    ready: int
    laps: int
    cost: int


def pairs_of(fleets: Sequence[Tuple[int, int]], legs: Sequence[Leg], period: int) -> Iterator[Pair]:
    """The pairs, leg by leg."""
    for leg, (origin, departure, target, block, costs) in enumerate(legs):
        for fleet, (_, turn) in enumerate(fleets):
            laps, ready = divmod(departure + block + turn, period)
            yield Pair(leg, fleet, origin, departure, target, ready, laps, costs[fleet])


def lines_of(
    fleets: Sequence[Tuple[int, int]], legs: Sequence[Leg], stations: int, goes: Optional[Goes] = None, period: int = DAY
) -> Tuple[List[List[int]], List[int]]:
    """The lines, each with its right side last, and the costs; without the ground arcs that go. `period` is in minutes."""
    pairs = list(pairs_of(fleets, legs, period))
    starts: Dict[Tuple[int, int], List[int]] = {}
    arcs: List[Tuple[int, int, int]] = []
    for fleet, station in itertools.product(range(len(fleets)), range(stations)):
        departures = [it.departure for it in pairs if (it.fleet, it.origin) == (fleet, station)]
        readies = [it.ready for it in pairs if (it.fleet, it.target) == (fleet, station)]
        nodes = starts[fleet, station] = nodes_of(departures, readies)
        arcs += [(fleet, station, node) for node in range(len(nodes)) if not (goes and goes(nodes, node, departures, readies, station))]
    columns = len(pairs) + len(arcs) + len(fleets)

    def line(right: int, entries: Iterable[Tuple[int, int]]) -> List[int]:
        made = [0] * columns + [right]
        for column, number in entries:
            made[column] += number
        return made

    lines = [line(1, ((at, 1) for at, it in enumerate(pairs) if it.leg == leg)) for leg in range(len(legs))]
    for place, nodes in starts.items():
        lines += [line(0, balance(place, nodes, node, pairs, arcs)) for node in range(len(nodes))]
    for fleet, (aircraft, _) in enumerate(fleets):
        away = [(at, it.laps) for at, it in enumerate(pairs) if it.fleet == fleet]
        on_ground = [(len(pairs) + at, 1) for at, (own, station, node) in enumerate(arcs) if own == fleet and node + 1 == len(starts[own, station])]
        lines.append(line(aircraft, [*away, *on_ground, (len(pairs) + len(arcs) + fleet, 1)]))
    return lines, [it.cost for it in pairs] + [0] * (columns - len(pairs))


def balance(
    place: Tuple[int, int], nodes: Sequence[int], node: int, pairs: Sequence[Pair], arcs: Sequence[Tuple[int, int, int]]
) -> Iterator[Tuple[int, int]]:
    """The entries of a node's line: what comes to it less what leaves it, of a fleet at a station."""
    for at, it in enumerate(pairs):
        if (it.fleet, it.origin) == place and node_at(nodes, it.departure) == node:
            yield at, -1
        if (it.fleet, it.target) == place and node_at(nodes, it.ready) == node:
            yield at, 1
    for at, (fleet, station, start) in enumerate(arcs):
        if (fleet, station) == place:
            yield len(pairs) + at, int((start + 1) % len(nodes) == node) - int(start == node)
