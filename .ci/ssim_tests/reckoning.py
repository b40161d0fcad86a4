"""What a schedule file needs, reckoned apart from the tool: weeks by bench/judge_reference.py, which counts at each minute, and the weeks as
they follow each other by the greatest lack at each station."""

from __future__ import annotations

import datetime
import types
from collections import Counter
from typing import Any, Dict, Iterable, List, Mapping, NamedTuple, Optional, Sequence, Set, Tuple

from judge_reference import Movements
from ssim_tests.test_seasons import DAY, dates_of, day_of, ends_of

WEEK = 7
TURN = 30
# No season of the tests goes on for longer: periods may have no end.
LAST = datetime.date(2027, 6, 30).toordinal()


class Flight(NamedTuple):
    """A leg on a date: when it departs and is ready again, from where to where, and its type."""

    departs: int
    ready: int
    origin: str
    target: str
    kind: str


def flights_in(lines: Sequence[str]) -> List[Flight]:
    """Returns the flights of a file, each on each of its dates."""
    carrier = next(it for it in lines if it[0] == "2")
    first, last = day_of(carrier[14:21]), min(day_of(carrier[21:28]), LAST)
    found = []
    for line in (it for it in lines if it[0] == "3"):
        for date in dates_of(line.replace("00XXX00", "30JUN27"), last):
            if date >= first:
                departs, arrives = ends_of(line, date, carrier[1] == "L")
                found.append(Flight(departs, arrives + TURN, line[36:39], line[54:57], line[72:75]))
    return sorted(found)


def within(flights: Iterable[Flight], first: int, days: int) -> List[Flight]:
    """Returns the flights that depart on some days."""
    return [it for it in flights if DAY * first <= it.departs < DAY * (first + days)]


def net_of(flights: Iterable[Flight]) -> Dict[str, int]:
    """Returns the arrivals less departures at stations where they differ."""
    net: Counter[str] = Counter()
    for it in flights:
        net[it.target] += 1
        net[it.origin] -= 1
    return {code: count for code, count in net.items() if count}


def week_need(flights: Sequence[Flight], first: int) -> Optional[int]:
    """Returns how many aircraft flights of one type in seven days need where these repeat, or None where they don't come back."""
    own = within(flights, first, WEEK)
    if net_of(own):
        return None
    legs = {str(at): (it.origin, it.departs - DAY * first, it.target, it.ready - TURN - it.departs) for at, it in enumerate(own)}
    stations = {code: 0 for it in own for code in (it.origin, it.target)}
    tables: Any = types.SimpleNamespace(minutes=DAY * WEEK, extra=stations, turn={"F": TURN}, legs=legs)
    return Movements(tables, legs, "F").used


def line_need(flights: Sequence[Flight], first: int, days: int) -> int:
    """Returns how many aircraft flights of one type need through some days, one after another, with any aircraft at first."""
    own = within(flights, first, days)
    start = DAY * first
    aloft = [it for it in flights if it.departs < start <= it.ready]
    need = len(aloft)
    for code in {it.origin for it in own}:
        steps = [(it.ready, 1) for it in (*aloft, *own) if it.target == code] + [(it.departs, -1) for it in own if it.origin == code]
        moments: Counter[int] = Counter()
        for minute, step in steps:
            moments[minute] += step
        stands = least = 0
        for minute in sorted(moments):
            stands += moments[minute]
            least = min(least, stands)
        need -= least
    return need


def shape(flights: Sequence[Flight], first: int) -> Counter[Tuple[object, ...]]:
    """Returns the flights of seven days, counted from the first."""
    return Counter((it.departs - DAY * first, it.ready - DAY * first, *it[2:]) for it in within(flights, first, WEEK))


def lacks(filed: Sequence[str], written: Sequence[str], fleets: Mapping[str, int], first: int, is_season: bool) -> Set[str]:
    """Returns the types that lack an aircraft in a file as a plan leaves it, whose weeks begin with a day: in a week that repeats, or
    through the weeks that follow each other. Legs of other types aren't looked at."""
    files = [[it for it in flights_in(lines) if it.kind in fleets] for lines in (filed, written)]
    own = [(c, it) for c, it in with_carriers(filed) if it[72:75] in fleets]
    spans = [(max(day_of(it[14:21]), day_of(c[14:21])), min(end_of(it), day_of(c[21:28]))) for c, it in own]
    season = min(it for it, _ in spans), max(it for _, it in spans)
    numbers = range((season[0] - first) // WEEK - 2, (season[1] - first) // WEEK + 3) if is_season else range(-2, 3)
    return {kind for kind, most in fleets.items() if lacking(files, kind, most, [first + WEEK * it for it in numbers], season)}


def lacking(files: Sequence[Sequence[Flight]], kind: str, most: int, starts: Sequence[int], season: Tuple[int, int]) -> bool:
    """Returns whether a type lacks an aircraft in weeks that begin with some days."""
    before, behind = ([it for it in own if it.kind == kind] for own in files)
    changed = [it for it in starts if shape(before, it) != shape(behind, it)]
    known: Dict[object, Optional[int]] = {}
    moved: Counter[str] = Counter()
    for start in changed:
        moved.update(net_of(within(behind, start, WEEK)))
        moved.subtract(net_of(within(before, start, WEEK)))
        own = within(files[0], start, WEEK)
        kinds = {it.kind for it in own}
        if season[0] <= start and start + WEEK - 1 <= season[1] and not any(net_of(it for it in own if it.kind == one) for one in kinds):
            key = tuple(sorted(shape(behind, start).items()))
            known.setdefault(key, week_need(behind, start) if key not in known else None)
            need = known[key]
            if need is None or need > most:
                return True
    if not changed:
        return False
    at, days = changed[0] - WEEK, changed[-1] - changed[0] + 3 * WEEK
    days = max(days, season[1] + 2 * WEEK - at) if any(moved.values()) else days
    return line_need(behind, at, days) > max(most, line_need(before, at, days))


def end_of(line: str) -> int:
    """Returns the last date of a leg's period."""
    return LAST if line[21:28] == "00XXX00" else day_of(line[21:28])


def with_carriers(lines: Sequence[str]) -> List[Tuple[str, str]]:
    """Returns the legs' lines, each with its carrier record."""
    carrier, found = "", []
    for it in lines:
        carrier = it if it[0] == "2" else carrier
        found += [(carrier, it)] if it[0] == "3" else []
    return found
