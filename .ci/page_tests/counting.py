"""What is to be drawn, counted from the tables alone."""

from __future__ import annotations

import csv
import datetime
from collections import Counter
from pathlib import Path
from typing import List, Tuple

from page_tests.plans import Drawn

DAY = 1440


def rows(path: Path) -> List[List[str]]:
    """Returns the records of a table below its header."""
    with path.open(encoding="utf-8", newline="") as it:
        return list(csv.reader(it))[1:]


def option(drawn: Drawn, name: str, other: str) -> str:
    """Returns the value of an option, or another one where it doesn't stand there."""
    words = [*drawn.reading, *drawn.words]
    return words[words.index(name) + 1] if name in words else other


def wanted_legs(drawn: Drawn) -> "Counter[Tuple[str, str]]":
    """Returns each flight that the plan flies with each date that it departs on, counted from the tables alone."""
    period, start = int(option(drawn, "--period", "1")), option(drawn, "--day-start", "03:00")
    first = option(drawn, "--from", "")
    days = int(option(drawn, "--dates", str(period)))
    shifts = {flight: (fleet, int(more[0]) if more else 0) for flight, fleet, *more in rows(drawn.folder / "plan.csv")}
    found: "Counter[Tuple[str, str]]" = Counter()
    for flight, *more in rows(drawn.folder / "legs.csv"):
        fleet, shift = shifts[flight]
        day, dep = (int(more[0]), more[2]) if len(more) == 5 else (1, more[1])
        minute = (DAY * (day - 1) + minutes(dep) + shift - minutes(start)) % (DAY * period)
        for turn in range(-(-days // period)):
            number = minute // DAY + turn * period
            if fleet != "-" and number < days:
                found[flight, date_of(first, number, period)] += 1
    return found


def minutes(text: str) -> int:
    """Returns the minute of a clock time."""
    return 60 * int(text[:2]) + int(text[3:])


def date_of(first: str, number: int, period: int) -> str:
    """Returns how a day is named in the page."""
    if first:
        return (datetime.date.fromisoformat(first) + datetime.timedelta(number)).isoformat()
    return str(number % period + 1)
