"""When a minute of a chart is: its clock time, and its date or its day of the period."""

import datetime
import re
from typing import List, Optional

from fleetplan import times
from fleetplan.times import DAY

WEEKDAYS = ("Mon", "Tue", "Wed", "Thu", "Fri", "Sat", "Sun")
MONTHS = ("Jan", "Feb", "Mar", "Apr", "May", "Jun", "Jul", "Aug", "Sep", "Oct", "Nov", "Dec")


class Calendar:
    """The days of a chart. Minutes count from the day start of its first day, which has a date, or is day 1 of the period."""

    def __init__(self, day_start: int, period: int, days: int, first: Optional[datetime.date] = None) -> None:
        self.day_start, self.period, self.days, self.first = day_start, period, days, first

    @property
    def has_days(self) -> bool:
        """Returns whether days are told: those of a period of one have no name."""
        return self.first is not None or self.period > 1

    def clock(self, minute: int) -> str:
        """Returns the clock time of a minute, in UTC."""
        return times.clock(minute + self.day_start)

    def named(self, number: int) -> str:
        """Returns the name of a day from midnight to midnight, counted from 0 for that in which the chart begins."""
        if self.first is not None:
            date = self.first + datetime.timedelta(number)
            return f"{WEEKDAYS[date.weekday()]} {date.day} {MONTHS[date.month - 1]}"
        return f"day {number % self.period + 1}"

    def names(self, minute: int) -> List[str]:
        """Returns the names that the day of a minute may have, in UTC, the longest first."""
        whole = self.named((minute + self.day_start) // DAY)
        return [whole.split(" ", at)[-1] if self.first is not None else whole for at in (0, 1)] + [re.findall(r"\d+", whole)[0]]

    def day(self, minute: int) -> str:
        """Returns the name of the day in which a minute is, in UTC, or nothing where days have no names."""
        return self.named((minute + self.day_start) // DAY) if self.has_days else ""

    def moment(self, minute: int) -> str:
        """Returns clock time and day of a minute."""
        return " ".join(it for it in (self.day(minute), self.clock(minute)) if it)

    def key(self, minute: int) -> str:
        """Returns the date of the day start before a minute, as `tails` tells it, or the number of that day."""
        number = minute // DAY
        if self.first is not None:
            return (self.first + datetime.timedelta(number)).isoformat()
        return str(number % self.period + 1)
