"""Made seasons with plans that are drawn: on each date of the season the legs of the new file depart as planned, or as filed. What a file
says is counted out here, apart from the tool."""

from __future__ import annotations

import datetime
import random
from collections import Counter
from pathlib import Path
from typing import Dict, List, Mapping, Optional, Sequence, Tuple

import pytest
from schedule_lines import EVERY_DAY, leg, numbered, segment, text, whole
from ssim_tests.test_shifts import Drawn
from ssim_tests.trying import call, records

DAY = 1440
SEASONS = 120
TYPES = ("320", "E90", "333")
ZONES = {"ZRH": "+0100", "LHR": "+0000", "YYT": "-0330", "KTM": "+0545", "AKL": "+1300", "HNL": "-1000", "GVA": "+0100"}
FIRST = datetime.date(2026, 10, 25)
# Departures are compared up to this day: periods may have no end.
LAST = datetime.date(2027, 3, 1).toordinal()
REFUSED = ("it should be within", "it should be 7 at most")


def day_of(field: str) -> int:
    """Returns the day of DDMMMYY."""
    return LAST if field == "00XXX00" else datetime.datetime.strptime(field.title(), "%d%b%y").toordinal()


def minutes(field: str) -> int:
    """Returns the minute of HHMM."""
    return 60 * int(field[:2]) + int(field[2:])


def zone(field: str) -> int:
    """Returns the minutes of a variation from UTC."""
    return minutes(field[1:]) * (-1 if field[0] == "-" else 1)


def written(minute: int) -> str:
    """Returns a minute of any day as HHMM."""
    return f"{minute % DAY // 60:02}{minute % 60:02}"


def variation(days: int) -> str:
    """Returns a date variation."""
    return "A" if days < 0 else str(days)


def dates_of(line: str, last: int) -> List[int]:
    """Returns the dates of operation of a leg's line."""
    start, end = day_of(line[14:21]), min(day_of(line[21:28]), last)
    is_on = {it: line[28:35][(it - 1) % 7] != " " and not (line[35] == "2" and (it - start) // 7 % 2) for it in range(start, end + 1)}
    return [it for it in is_on if is_on[it]]


def ends_of(line: str, date: int, is_local: bool) -> List[int]:
    """Returns the minutes in UTC at which a leg departs and arrives, by its line and a date of operation."""
    fields = (line[192], line[43:47], line[47:52]), (line[193], line[57:61], line[65:70])
    days = [-1 if it == "A" else int(it.strip() or 0) for it, _, _ in fields]
    return [DAY * (date + day) + minutes(time) - is_local * zone(own) for day, (_, time, own) in zip(days, fields)]


def late(line: str, at: int, of: int) -> Optional[int]:
    """Returns by how many minutes the passengers' time differs from the aircraft's, or None where it is blank."""
    return (minutes(line[at : at + 4]) - minutes(line[of : of + 4])) % DAY if line[at : at + 4].strip() else None


def kept_of(lines: Sequence[str], number: int) -> Tuple[object, ...]:
    """Returns what a plan may not change of a leg's line and its segment data."""
    line = lines[number - 1]
    data = tuple(it[28:194] for it in lines[number : number + 2] if it[0] == "4" and it[1:14] == line[1:14])
    return line[1:9], line[11:14], line[36:39], line[54:57], line[75:127], line[128:192], late(line, 39, 43), late(line, 61, 57), data


def departures(
    lines: Sequence[str], planned: Optional[Mapping[Tuple[int, object], Tuple[str, int]]] = None, is_whole_season: bool = False
) -> Counter[Tuple[object, ...]]:
    """Returns how often each leg departs, with all that a plan may not change; by a plan, where one is given."""
    is_local, last = lines[5][1] == "L", day_of(lines[5][21:28])
    found: Counter[Tuple[object, ...]] = Counter()
    kept = {number: kept_of(lines, number) for number, line in enumerate(lines, 1) if line[0] == "3"}
    for number, date in ((number, date) for number in kept for date in dates_of(lines[number - 1], last)):
        line = lines[number - 1]
        departs, arrives = ends_of(line, date, is_local)
        key = number, (date - 1) % 7 if is_whole_season else datetime.date.fromordinal(date)
        fleet, shift = (planned or {}).get(key, (line[72:75], 0))
        if fleet != "-" and departs + shift < DAY * (LAST - 1):
            found[departs + shift, arrives - departs, fleet, kept[number]] += 1
    return found


def itinerary(chance: random.Random, flight: int, number: int, days: str, is_local: bool) -> List[str]:
    """Returns the lines of an itinerary of one to three legs, or none where no date variations say when they depart."""
    start = FIRST + datetime.timedelta(chance.randint(0, 40))
    end = start + datetime.timedelta(chance.choice((6, 13, 20, 60, 100)))
    period = start.strftime("%d%b%y").upper(), chance.choice((end.strftime("%d%b%y").upper(), "00XXX00"))
    stations, minute, lines, rate = chance.sample(sorted(ZONES), 4), chance.randint(-DAY, 2 * DAY), [], chance.choice(" 12")
    for sequence in range(1, chance.choice((1, 1, 2, 3)) + 1):
        origin, destination = stations[sequence - 1 : sequence + 1]
        block = chance.randint(30, 1000)
        ends = [at + is_local * zone(ZONES[it]) for at, it in ((minute, origin), (minute + block, destination))]
        if not -DAY <= min(ends) <= max(ends) < 8 * DAY:
            return []
        way = f"{origin} {written(ends[0])} {ZONES[origin]} {destination} {written(ends[1])} {ZONES[destination]}"
        blank: Dict[str, str] = {}
        more = chance.choice((blank, blank, {"b40": "    "}, {"b62": "1234"}))
        shifts = "".join(variation(it // DAY) for it in ends)
        one = leg("ZZ", flight, way, chance.choice(TYPES), days, period, number, sequence, shifts=shifts, b36=rate, **more)
        lines.extend([one, *(segment(one, it, "XY 1") for it in chance.choice(((), ("010",), ("010", "109"))))])
        minute += block + chance.randint(20, 600)
    return lines


def season(chance: random.Random) -> List[str]:
    """Returns the lines of a season of some flights, whose itineraries share the days of the week out among them."""
    is_local, legs = chance.random() < 0.7, []
    for flight, number in ((flight, number) for flight in range(1, 5) for number in (1, 2)):
        days = "".join(it for it in EVERY_DAY if chance.random() < 0.9 and int(it) * flight % 2 == number - 1)
        legs.extend(itinerary(chance, flight, number, days, is_local) if days else [])
    return whole("ZZ", legs, "L" if is_local else "U")


def season_of(folder: Path, draw: int) -> int:
    """Makes a season and a plan by a number, compares what departs, and returns how many legs are planned."""
    chance, words = random.Random(draw), ["--whole-season"] if draw % 2 else []
    option, first = ("--date", "--week")[draw % 4 > 1], FIRST + datetime.timedelta(chance.randint(0, 100))
    lines, day = season(chance), folder / "day"
    (folder / "season").write_bytes(text(lines).encode("ascii"))
    (folder / "fleets").write_text("fleet,aircraft,turn\n" + "".join(f"{it},99,30\n" for it in TYPES), encoding="ascii")
    call("tables", folder / "season", day, option, first.isoformat(), "--fleets", folder / "fleets")
    drawn = Drawn(chance, day, TYPES, is_calm=False)
    status, told = call("plan", folder / "season", day, folder / "new", *words)
    if status:
        assert status == 6 and any(it in told for it in REFUSED), told
        return 0
    new = (folder / "new").read_bytes().decode("ascii").split("\r\n")[:-1]
    assert departures(new) == departures(lines, drawn.planned(bool(words)), bool(words))
    assert new == numbered([f"{it[:194]}000000" for it in new])
    return len(records(day, "plan.csv"))


@pytest.mark.parametrize("draw", range(SEASONS))
def test_season(draw: int, scratch: Path) -> None:
    """Legs depart as planned, and all others as filed."""
    season_of(scratch, draw)


def test_legs_are_planned(scratch: Path) -> None:
    """The seasons have legs on their dates."""
    folders = [scratch / str(draw) for draw in range(SEASONS // 4)]
    for it in folders:
        it.mkdir()
    assert sum(season_of(it, int(it.name)) for it in folders) > len(folders)
