"""The aircraft on the ground at each station: of all fleets, stacked, with the limit of a night."""

from collections import Counter
from dataclasses import dataclass, replace
from typing import Dict, List, Optional, Tuple

from drawing.calendars import Calendar
from drawing.charts import Scale
from drawing.colours import Palette
from fleetplan.schedule import Plan, Schedule, lacking
from fleetplan.tables import NO_FLEET

# Pixels: an aircraft at most, the tallest station, and what stands above it.
TALL, TALLEST, ABOVE = 14, 112, 12


@dataclass(frozen=True)
class Stand:
    """A number of aircraft of a fleet that stays the same for a while, on top of those of other fleets."""

    fleet: str
    first: int
    last: int
    count: int
    below: int


@dataclass
class Station:
    """A station to which flights go: how many aircraft of all fleets stand there from minute to minute, and those of each fleet."""

    code: str
    maintains: bool
    parking: Optional[int]
    moves: int
    totals: List[Tuple[int, int, int]]
    stands: List[Stand]

    @property
    def most(self) -> int:
        """The most aircraft that stand there at once."""
        return max((count for _, _, count in self.totals), default=0)


# Of a station the changes of each fleet's aircraft on the ground, by the minute.
Changes = Dict[str, Dict[int, int]]


def stations_of(schedule: Schedule, choice: Plan) -> List[Station]:
    """Returns the stations to which flights go, those with most departures and arrivals first."""
    found: Dict[str, Changes] = {it: {} for it in schedule.extra}
    for fleet in schedule.aircraft:
        for code, own in schedule.changes(schedule.flown_by(choice, fleet)).items():
            if own:
                found[code][fleet] = own
    flown = [schedule.legs[flight] for flight, fleet in choice.items() if fleet != NO_FLEET]
    moves = Counter(code for leg in flown for code in (leg.start, leg.end))
    stations = [
        Station(code, schedule.maintains[code], schedule.parking.get(code), moves[code], *stacked(changes, schedule.minutes))
        for code, changes in found.items()
        if changes
    ]
    return sorted(stations, key=lambda it: -it.moves)


def stacked(changes: Changes, minutes: int) -> Tuple[List[Tuple[int, int, int]], List[Stand]]:
    """Returns how many aircraft stand at a station from which minute to which, and the stands of each fleet on top of the others."""
    counts = {fleet: lacking(own) for fleet, own in changes.items()}
    times = sorted({0, *(minute for own in changes.values() for minute in own)})
    totals: List[Tuple[int, int, int]] = []
    stands: Dict[str, List[Stand]] = {fleet: [] for fleet in changes}
    for first, last in zip(times, [*times[1:], minutes]):
        below = 0
        for fleet, own in changes.items():
            counts[fleet] += own.get(first, 0)
            grow(stands[fleet], Stand(fleet, first, last, counts[fleet], below))
            below += counts[fleet]
        begun = totals.pop()[0] if totals and totals[-1][2] == below else first
        totals.append((begun, last, below))
    return totals, [it for own in stands.values() for it in own if it.count]


def grow(stands: List[Stand], it: Stand) -> None:
    """Adds a stand, or makes the last one longer where it is as many, on as many others."""
    if stands and (stands[-1].count, stands[-1].below) == (it.count, it.below):
        stands[-1] = replace(stands[-1], last=it.last)
    else:
        stands.append(it)


@dataclass(frozen=True)
class Block:
    """A stand as it is drawn."""

    kind: str
    x: float
    width: float
    y: float
    height: float
    title: str
    is_hatched: bool


@dataclass
class Picture:
    """A station as it is drawn: its height, that of an aircraft, the blocks of all fleets, the totals, and where the limit stands."""

    station: Station
    height: float
    unit: float
    blocks: List[Block]
    totals: List[Tuple[float, float, int]]
    limit: Optional[float]

    @property
    def top(self) -> int:
        """The number of aircraft up to which the axis goes."""
        return round((self.height - 1 - ABOVE) / self.unit)

    @property
    def told(self) -> str:
        """What stands beside the station's code."""
        station = self.station
        told = [f"{station.moves} departures and arrivals", "maintenance at night" if station.maintains else ""]
        told.append(f"at night at most {station.parking}" if station.parking is not None else "")
        return ", ".join(it for it in told if it)


def picture(station: Station, schedule: Schedule, palette: Palette, calendar: Calendar) -> Picture:
    """Returns a station as it is drawn."""
    scale = Scale(schedule.minutes)
    most = max(station.most, station.parking if station.parking is not None and station.parking <= 2 * station.most + 2 else 0, 1)
    unit = min(TALL, TALLEST / most)
    floor = ABOVE + unit * most
    blocks = [drawn(it, floor, unit, scale, palette, calendar) for it in station.stands]
    totals = [
        (scale.x((first + last) / 2), floor - unit * count - 3, count)
        for first, last, count in station.totals
        if count and (last - first) * scale.per_minute >= 8 * len(str(count)) + 2
    ]
    limit = floor - unit * station.parking if station.parking is not None and station.parking <= most else None
    return Picture(station, floor + 1, unit, blocks, totals, limit)


def drawn(stand: Stand, floor: float, unit: float, scale: Scale, palette: Palette, calendar: Calendar) -> Block:
    """Returns a stand as it is drawn."""
    x = scale.x(stand.first)
    title = f"{stand.count} {stand.fleet} from {calendar.moment(stand.first)} to {calendar.clock(stand.last)}"
    y, height = floor - unit * (stand.below + stand.count), unit * stand.count
    return Block(palette.kind(stand.fleet), x, scale.x(stand.last) - x, y, height, title, palette.is_hatched(stand.fleet))
