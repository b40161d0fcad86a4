"""A plan written back into the schedule file: the aircraft types and the departures of the legs of its dates."""

from __future__ import annotations

import datetime
import itertools
import os
import re
from collections import Counter
from typing import Callable, Dict, Iterator, List, Mapping, NamedTuple, Optional, Sequence, Set, Tuple

from fleetplan.errors import Unread
from fleetplan.forms import MOST_SHIFT
from fleetplan.records import Rows
from fleetplan.tables import DATED, HEADERS, NO_FLEET, SHIFTED, headers_of
from fleetplan.texts import printed, some
from fleetplan.times import DAY, clock
from schedule_files.changing import Change, changes_told
from schedule_files.days import WEEK, Dates, iso, text_of
from schedule_files.files import rows
from schedule_files.laying import Laying, laid_on
from schedule_files.layout import BadLine, ZEROS
from schedule_files.keeping import want_together
from schedule_files.naming import NAMES, ZONED
from schedule_files.reading import MOST_RECORDS, Leg, Schedule, read_schedule
from schedule_files.retiming import common_dates, move_of, moved, retimed
from schedule_files.splitting import LEFT_OUT, Changes, Chosen, Held, Part, Planned, parts_by_date, parts_by_weekday
from schedule_files.weeks import Fleet, Scope

# How many records fill a block, with lines of zeros where there are too few.
BLOCK = 5
# What the legs of an itinerary have in common: the line of their carrier, their flight and its variation.
Itinerary = Tuple[int, Tuple[str, int, str], str]
Ways = Dict[str, List[str]]
Cut = Callable[[Sequence[Leg], Changes], List[Part]]
Variations = Dict[Tuple[Itinerary, Optional[Part]], int]
LETTERS = " ABCDEFGHIJKLMNOPQRSTUVWXYZ"
SHIFT = re.compile("0|-?[1-9][0-9]{0,2}")


class Planning(NamedTuple):
    """What a plan changes: of each itinerary its dates, each with what is planned of legs; counts of that; the records of the plan whose
    legs the file doesn't have; the dates that it is of, None where it has no leg; and its legs with their fleets."""

    changes: Dict[Itinerary, Changes]
    counts: Counter[str]
    added: Rows
    dates: Optional[Dates]
    legs: List[Change]


def planning_of(schedule: Schedule, folder: str, scope: Scope) -> Planning:
    """Returns what the plan of a folder changes, or raises Unread."""
    path = os.path.join(folder, "names.csv")
    named, ways = [it[: len(NAMES)] for it in rows(path, NAMES, ZONED)], ways_of(folder)
    want_together(folder, "names.csv", scope.sums)
    plan, added = plan_of(folder, [it[0] for it in named], ways)
    legs = {it.number: it for it in schedule.legs}
    flown = [leg_named(schedule, legs, path, number, row) for number, row in enumerate(named, 2)]
    first = first_day(flown[0], ways.get(named[0][0])) if flown else None
    changes: Dict[Itinerary, Changes] = {}
    counts: Counter[str] = Counter()
    found: List[Change] = []
    for number, row, (leg, operates) in zip(itertools.count(2), named, flown):
        check_way(f"{path} record {number}: {row[0]}", schedule, leg, way_of(leg, operates, first), ways.get(row[0]))
        planned = of_family(leg, plan[row[0]], scope)
        found.append(Change(row[0], scope.choice.fleet_of(leg.type), planned.type if planned else NO_FLEET))
        if planned != Planned(leg.type, 0):
            check_fleet(folder, row[0], leg, planned, scope.fleets)
            changes.setdefault(itinerary_of(leg), {}).setdefault(operates, {})[leg.number] = planned
            counts.update(counted(leg, planned))
    return Planning(changes, counts, added, dates_of(flown, first), found)


def of_family(leg: Leg, planned: Chosen, scope: Scope) -> Chosen:
    """Returns what is planned of a leg, with the type that it has in the file where it stays in that one's fleet."""
    stays = planned is not None and planned.type == scope.choice.fleet_of(leg.type)
    return Planned(leg.type, planned.shift) if planned is not None and stays else planned


def dates_of(flown: Sequence[Tuple[Leg, int]], first: Optional[int]) -> Optional[Dates]:
    """Returns the dates of tables, by the first day of those that have days; or None where they have no leg."""
    if first is not None:
        return Dates(first, WEEK)
    return Dates(flown[0][1] + flown[0][0].departure // DAY) if flown else None


def check_fleet(folder: str, flight: str, leg: Leg, planned: Chosen, fleets: Mapping[str, Fleet]) -> None:
    """Refuses a leg that changes to a fleet which fleets.csv doesn't have."""
    if planned is not None and planned.type not in (leg.type, *fleets):
        should = f"one of {os.path.join(folder, 'fleets.csv')}: {', '.join(fleets)}"
        raise Unread(f"{os.path.join(folder, 'plan.csv')}: the fleet of {printed(flight)} is {planned.type}, it should be {should}")


def ways_of(folder: str) -> Ways:
    """Returns where and when each leg departs and arrives by legs.csv: shifts count from there."""
    return {it[0]: it[1:] for it in rows(os.path.join(folder, "legs.csv"), *headers_of("legs.csv"))}


def first_day(flown: Tuple[Leg, int], way: Optional[Sequence[str]]) -> Optional[int]:
    """Returns the first day of tables whose legs have days, by that of a leg and its date of operation; or None."""
    leg, operates = flown
    if way and len(way) == len(DATED) - 1 and re.fullmatch("[1-7]", way[0]):
        return operates + leg.departure // DAY + 1 - int(way[0])
    return None


def way_of(leg: Leg, operates: int, first: Optional[int]) -> List[str]:
    """Returns where and when a leg departs and arrives as legs.csv has it, where the first day of the tables is known with its day."""
    day = [] if first is None else [str(operates + leg.departure // DAY + 1 - first)]
    return [*day, leg.origin, clock(leg.departure), leg.destination, clock(leg.arrival)]


def check_way(where: str, schedule: Schedule, leg: Leg, filed: Sequence[str], way: Optional[Sequence[str]]) -> None:
    """Refuses a leg that legs.csv has otherwise than the schedule file: what is changed there isn't written back."""
    if way != filed:
        should = f"{printed(' '.join(way))} as in legs.csv, in the file that the tables are of" if way else "in legs.csv"
        raise Unread(f"{where} is {' '.join(filed)} by line {leg.number} of {schedule.path}, it should be {should}")


def counted(leg: Leg, planned: Chosen) -> Iterator[str]:
    """Yields what is to be counted of a leg that is changed."""
    if planned is None:
        yield "left out"
        return
    if planned.type != leg.type:
        yield "type"
    if planned.shift:
        yield "shift"
    if leg.departure // DAY != (leg.departure + planned.shift) // DAY:
        yield "day"


def plan_of(folder: str, names: Sequence[str], ways: Ways) -> Tuple[Dict[str, Chosen], Rows]:
    """Returns what plan.csv has for each leg of names.csv, and those of its records whose legs legs.csv alone has."""
    path, known = os.path.join(folder, "plan.csv"), set(names)
    found = list(enumerate(rows(path, HEADERS["plan.csv"], SHIFTED), 2))
    added = [row for _, row in found if row[0] not in known and row[0] in ways]
    own = [(number, row) for number, row in found if row[0] in known or row[0] not in ways]
    plan = {}
    for (number, row), name in zip(own, names):
        if row[0] != name:
            raise Unread(f"{path} record {number}: the flight is {printed(row[0])}, it should be {printed(name)} as in names.csv")
        plan[name] = planned_by(f"{path} record {number}", *row)
    if len(own) != len(names):
        raise Unread(f"{path} has {len(own)} flights, it should have the {len(names)} of names.csv")
    return plan, added


def planned_by(where: str, flight: str, fleet: str, shift: str = "0") -> Chosen:
    """Returns what the fields of a record of plan.csv say, or raises Unread."""
    flight = printed(flight)
    if not SHIFT.fullmatch(shift) or abs(int(shift)) > MOST_SHIFT:
        form = f"minutes from -{MOST_SHIFT} to {MOST_SHIFT}, as 10, 0 or -5"
        raise Unread(f"{where}: the shift of {flight} is {printed(shift)}, it should be {form}")
    if fleet == NO_FLEET:
        if int(shift):
            raise Unread(f"{where}: the shift of {flight} is {shift} beside the fleet {NO_FLEET}, it should be 0")
        return LEFT_OUT
    if not re.fullmatch("[A-Z0-9]{3}", fleet):
        form = "an aircraft type of three letters A to Z and digits"
        raise Unread(f"{where}: the fleet of {flight} is {printed(fleet)}, it should be {form}")
    return Planned(fleet, int(shift))


def leg_named(schedule: Schedule, legs: Mapping[int, Leg], path: str, number: int, row: Sequence[str]) -> Tuple[Leg, int]:
    """Returns the leg that a record of names.csv names, and its date of operation."""
    try:
        leg, operates = legs.get(int(row[6])), datetime.date.fromisoformat(row[7]).toordinal()
    except ValueError as error:
        raise Unread(f"{path} record {number}: {error}, it should be as tools/ssim tables wrote it") from error
    own = [leg.airline.strip(), str(leg.flight), leg.suffix.strip(), leg.variation, str(leg.sequence)] if leg else None
    if leg is None or row[1:6] != own or not leg.operates(operates):
        what = f"{path} record {number}: {printed(' '.join(row[1:6]))} on {row[7]} isn't the leg of line {row[6]} of {schedule.path}"
        raise Unread(f"{what}, it should be the file that the tables are of")
    return leg, operates


def itinerary_of(leg: Leg) -> Itinerary:
    """Returns what the legs of an itinerary have in common."""
    return leg.carrier.number, leg.name, leg.variation


class Piece(NamedTuple):
    """A leg's record in the new file: the leg, its itinerary, the part of that which it is in (None where that stays as it is), and its
    line there, but for what is counted anew."""

    leg: Leg
    itinerary: Itinerary
    part: Optional[Part]
    line: str


def pieces_of(schedule: Schedule, changes: Mapping[Itinerary, Changes], cut: Cut) -> List[Piece]:
    """Returns the records of legs of the new file, in their order. Legs of one itinerary that stand together are written together for
    each of its parts."""
    parts, pieces = parts_of(schedule, changes, cut), []
    for itinerary, legs in itertools.groupby(schedule.legs, itinerary_of):
        pieces.extend(pieces_in(schedule, itinerary, list(legs), parts.get(itinerary)))
    return pieces


def parts_of(schedule: Schedule, changes: Mapping[Itinerary, Changes], cut: Cut) -> Dict[Itinerary, List[Part]]:
    """Returns the parts of each itinerary that a plan changes."""
    legs: Dict[Itinerary, List[Leg]] = {}
    for leg in schedule.legs:
        itinerary = itinerary_of(leg)
        if itinerary in changes:
            legs.setdefault(itinerary, []).append(leg)
    return {itinerary: with_moves(schedule, own, cut(own, changes[itinerary])) for itinerary, own in legs.items()}


def with_moves(schedule: Schedule, legs: Sequence[Leg], parts: List[Part]) -> List[Part]:
    """Returns parts of an itinerary, each with the days by which its dates of operation have to move."""
    for part in parts:
        flown = ((leg, flown_in(leg, part)) for leg in legs)
        part.move = move_of(schedule, [(leg, it[0].shift) for leg, it in flown if it])
    return parts


def pieces_in(schedule: Schedule, itinerary: Itinerary, legs: Sequence[Leg], parts: Optional[Sequence[Part]]) -> List[Piece]:
    """Returns the records of legs that stand together: those of each part, or, where there are none, as they are."""
    if parts is None:
        return [Piece(leg, itinerary, None, schedule.lines[leg.number - 1]) for leg in legs]
    found = ((leg, part, line_in(schedule, leg, part, parts)) for part in parts for leg in legs)
    return [Piece(leg, itinerary, part, line) for leg, part, line in found if line]


def flown_in(leg: Leg, part: Part) -> Optional[Tuple[Planned, Held]]:
    """Returns what is planned of a leg in a part of its itinerary, with its dates there, or None where it has none or is left out."""
    planned, held = part.planned_of(leg), part.of(leg)
    return (planned, held) if planned and held else None


def line_in(schedule: Schedule, leg: Leg, part: Part, parts: Sequence[Part]) -> Optional[str]:
    """Returns a leg's line in a part of its itinerary, or None. A record without a date of operation stays as it is in the first."""
    line = schedule.lines[leg.number - 1]
    if part is parts[0] and not any(it.of(leg) for it in parts):
        return line
    flown = flown_in(leg, part)
    if not flown:
        return None
    (kind, shift), held = flown
    line = retimed(line, shift, part.move)
    start, end, days = moved(schedule, leg, held, part.move)
    return f"{line[:14]}{text_of(start)}{text_of(end)}{days}{line[35:72]}{kind}{line[75:]}"


def variations_of(pieces: Sequence[Piece], changes: Mapping[Itinerary, Changes]) -> Variations:
    """Returns the itinerary variation of each part of a flight that has more or fewer of them than before, counted anew from 1."""
    parts: Dict[Itinerary, Set[Part]] = {it: set() for it in changes}
    for it in pieces:
        if it.part is not None:
            parts[it.itinerary].add(it.part)
    flights: Dict[object, Variations] = {itinerary[:2]: {} for itinerary, own in parts.items() if len(own) != 1}
    for it in pieces:
        if it.itinerary[:2] in flights:
            flights[it.itinerary[:2]][it.itinerary, it.part] = 0
    return {key: number for own in flights.values() for number, key in enumerate(own, 1)}


class Writer:
    """The lines of the new file. Serial numbers are counted as they are written. `changed` are the lines of the carriers that a plan
    changes."""

    def __init__(self, schedule: Schedule, pieces: Sequence[Piece], variations: Variations, changed: Set[int]) -> None:
        self.schedule, self.variations, self.changed = schedule, variations, changed
        self.pieces: Dict[int, List[Piece]] = {}
        for it in pieces:
            self.pieces.setdefault(it.leg.carrier.number, []).append(it)
        self.lines: List[str] = []
        self.serial = 0

    def write(self) -> bytes:
        """Returns the bytes of the new file."""
        carriers = {it.number for it in self.schedule.carriers}
        carrier, kind, zeros = 0, "1", 0
        for number, line in enumerate(self.schedule.lines, 1):
            if line == ZEROS:
                zeros += 1
                continue
            if line[0] not in "345":
                self.lines.extend([ZEROS] * zeros)
                if number in carriers:
                    carrier = number
                    self.serial = 1 if int(line[194:]) == 2 else self.serial
                self.put(line)
            elif line[0] == "5":
                self.trailer(carrier, number, line, kind, zeros)
            elif kind == "2":
                self.lines.extend([ZEROS] * zeros)
            kind, zeros = line[0], 0
        self.lines.extend([ZEROS] * zeros)
        return self.schedule.encoded(self.lines)

    def put(self, line: str) -> None:
        """Writes a record with the next serial number."""
        self.serial += 1
        self.lines.append(f"{line[:194]}{self.serial:06}")

    def trailer(self, carrier: int, number: int, line: str, kind: str, zeros: int) -> None:
        """Writes the legs of a carrier, the lines of zeros behind them, and the trailer. Where such lines filled the last block of five,
        or none was wanted, they fill it again, of a carrier that is changed."""
        for it in self.pieces.get(carrier, ()):
            self.leg(it)
        if kind != "2" and (number - 1) % BLOCK == 0 and carrier in self.changed:
            zeros = -len(self.lines) % BLOCK
        self.lines.extend([ZEROS] * zeros)
        self.put(f"{line[:187]}{self.serial:06}{line[193:]}")

    def leg(self, piece: Piece) -> None:
        """Writes a leg and its segment data."""
        number = self.variations.get((piece.itinerary, piece.part))
        self.put(varied(piece.line, number, 127))
        for it in self.schedule.lines[piece.leg.number : piece.leg.last]:
            self.put(varied(it, number, 27))


def varied(line: str, number: Optional[int], at: int) -> str:
    """Returns a line with an itinerary variation, of which the hundreds stand elsewhere as a letter."""
    if number is None:
        return line
    return f"{line[:9]}{number % 100:02}{line[11:at]}{LETTERS[number // 100]}{line[at + 1 :]}"


class Written(NamedTuple):
    """The bytes of a new file, what is told of it, and the dates that its plan is of, None where it changes nothing."""

    data: bytes
    told: List[str]
    dates: Optional[Dates]


def write_plan(schedule: Schedule, folder: str, scope: Scope, laying: Laying) -> Written:
    """Returns a file with what a plan says of its legs, or raises Unread."""
    planning = planning_of(schedule, folder, scope)
    changes = laid_on(planning.changes, planning.dates, laying.days) if laying.days else planning.changes
    pieces = pieces_of(schedule, changes, parts_by_weekday if laying.is_by_weekday else parts_by_date)
    variations = variations_of(pieces, changes)
    if max(variations.values(), default=0) >= 100 * len(LETTERS):
        raise Unread(f"{schedule.path}: a flight would have more than {100 * len(LETTERS) - 1} itinerary variations")
    writer = Writer(schedule, pieces, variations, {carrier for carrier, *_ in changes})
    data = writer.write()
    if writer.serial > MOST_RECORDS:
        line = len(schedule.lines)
        raise BadLine(schedule.path, line, f"there would be {writer.serial} records", "bytes 195 to 200", f"{MOST_RECORDS} at most")
    lines = [*told(planning.counts, len(schedule.legs), pieces), *changes_told(folder, in_fleets(planning.legs, scope), scope.charge)]
    lines += [*unwritten(planning.added), *doubled(schedule.path, data, pieces)]
    return Written(data, lines, planning.dates if changes else None)


def in_fleets(legs: Sequence[Change], scope: Scope) -> List[Change]:
    """Returns legs with the fleets of their types."""
    return [it._replace(planned=scope.choice.fleet_of(it.planned)) for it in legs]


def unwritten(added: Rows) -> Iterator[str]:
    """Yields what is told of the legs that the file doesn't have: those that are flown, as ferries."""
    flown = [f"{printed(flight)} by {printed(fleet)}" for flight, fleet, *_ in added if fleet != NO_FLEET]
    if flown:
        yield f"{len(flown)} legs of legs.csv aren't in the file, and aren't written into it: {some(flown)}"


def doubled(path: str, data: bytes, pieces: Sequence[Piece]) -> Iterator[str]:
    """Yields what is told of the flights that have a date of operation twice, where the plan moves dates."""
    names = {it.leg.name for it in pieces if it.part is not None and it.part.move}
    if names:
        found = common_dates([it for it in read_schedule(path, data).legs if it.name in names])
        dates = [f"{airline.strip()} {flight}{suffix.strip()} on {iso(date)}" for (airline, flight, suffix), date in found.items()]
        if dates:
            yield f"{len(dates)} flights have a date of operation twice, which date variations can't say otherwise: {some(dates)}"


def told(counts: Counter[str], filed: int, pieces: Sequence[Piece]) -> Iterator[str]:
    """Yields what standard error is told of a plan, in lines."""
    kept = len({it.leg.number for it in pieces})
    yield f"{counts['type']} legs have another aircraft type, and {len(pieces) - kept} records are new"
    if counts["shift"]:
        over = f", {counts['day']} of them on another day in UTC" if counts["day"] else ""
        yield f"{counts['shift']} legs depart at another time{over}"
    if counts["left out"]:
        yield f"{counts['left out']} legs are left out, and {filed - kept} records are taken away"
    if counts["type"]:
        yield "configurations (bytes 173 to 192), classes (76 to 100) and onward flights (138 to 146) stay as filed: mend them where types changed"
    if counts["shift"] or counts["left out"]:
        yield "onward flights (bytes 138 to 146), leg sequences and data of segments stay as filed: mend them where times or legs changed"
