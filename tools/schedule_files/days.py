"""Dates, times and variations from UTC, as the lines of a schedule file write them. A day is a number: that of Python's calendar."""

import datetime
from typing import Dict, Optional

from fleetplan.times import DAY
from schedule_files.layout import MONTHS, OPEN_END

# The day of an open end, later than any other.
OPEN = datetime.date.max.toordinal()
# The last day that a line can write.
LAST_DAY = datetime.date(2099, 12, 31).toordinal()
ALL_DAYS = "1234567"
WEEK = 7
TIMES = {f"{it // 60:02}{it % 60:02}": it for it in range(DAY + 1)}
VARIATIONS = {f"{sign}{it // 60:02}{it % 60:02}": it if sign == "+" else -it for it in range(15 * 60) for sign in "+-"}
DATE_VARIATIONS = {" ": 0, "A": -1, **{str(it): it for it in range(8)}}

known_days: Dict[str, Optional[int]] = {OPEN_END: OPEN}


def day_of(text: str) -> Optional[int]:
    """Returns the day that DDMMMYY writes, or None where the calendar hasn't it."""
    if text not in known_days:
        try:
            date = datetime.date(2000 + int(text[5:]), MONTHS.index(text[2:5]) + 1, int(text[:2]))
            known_days[text] = date.toordinal()
        except ValueError:
            known_days[text] = None
    return known_days[text]


def text_of(day: int) -> str:
    """Returns a day as DDMMMYY."""
    if day == OPEN:
        return OPEN_END
    date = datetime.date.fromordinal(day)
    return f"{date.day:02}{MONTHS[date.month - 1]}{date.year % 100:02}"


def weekday_of(day: int) -> int:
    """Returns 1 for a Monday to 7 for a Sunday."""
    return (day - 1) % 7 + 1


def iso(day: int) -> str:
    """Returns a day as YYYY-MM-DD."""
    return datetime.date.fromordinal(day).isoformat()


class Dates:
    """The days that tables are of: the first one, and how many."""

    def __init__(self, first: int, count: int = 1) -> None:
        self.first, self.count = first, count

    def __str__(self) -> str:
        return f"on {iso(self.first)}" if self.count == 1 else f"in the {self.count} days from {iso(self.first)}"
