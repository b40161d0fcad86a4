"""On which dates a plan is laid."""

from typing import Dict, Mapping, NamedTuple, Optional, TypeVar

from fleetplan.errors import Unread
from schedule_files.days import Dates, weekday_of
from schedule_files.splitting import Changes

# The status where words don't fit the tables.
WRONG_WORDS = 2
# What stands for an itinerary.
Key = TypeVar("Key")


class Laying(NamedTuple):
    """On which dates a plan is laid: on its own, with `is_season` on their days of the week through each record's period, or on days of
    operation through that, `days`, each as the one date that the plan is of."""

    is_season: bool = False
    days: str = ""

    @property
    def is_by_weekday(self) -> bool:
        """Whether records are split by days of operation."""
        return self.is_season or bool(self.days)


def laid_on(changes: Mapping[Key, Changes], dates: Optional[Dates], days: str) -> Dict[Key, Changes]:
    """Returns what is planned of one date, by itineraries, for days of operation: of each the same as many days beside it as beside that
    date."""
    if dates is not None and dates.count > 1:
        raise Unread(f"--days {days} is for a plan of one date, and this one is of a week: --whole-season lays that on its days", WRONG_WORDS)
    found: Dict[Key, Changes] = {}
    for itinerary, planned in changes.items():
        for date, legs in planned.items():
            for day in map(int, days):
                at = date + day - weekday_of(dates.first if dates else date)
                found.setdefault(itinerary, {}).setdefault(at, {}).update(legs)
    return found
