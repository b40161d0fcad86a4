"""An itinerary that a plan changes on some of its dates, in parts: each part is one itinerary again."""

from typing import Dict, Iterable, Iterator, List, NamedTuple, Optional, Sequence, Tuple

from schedule_files.days import ALL_DAYS, OPEN, WEEK, weekday_of
from schedule_files.reading import Leg


class Planned(NamedTuple):
    """What is planned of a leg: its aircraft type, and by how many minutes it departs later than filed."""

    type: str
    shift: int


# The same, or that it isn't flown.
Chosen = Optional[Planned]
LEFT_OUT: Chosen = None
# What is planned of legs, by the numbers of their lines; the same by dates; and a first and a last date with days of operation.
Planning = Dict[int, Chosen]
Changes = Dict[int, Planning]
Held = Tuple[int, int, str]
# In so many days a leg operates once at least, where its period reaches so far.
FORTNIGHT = 14


class Part:
    """Dates of operation, from a first to a last one, on some days of the week, what is planned on them of legs by their numbers, and
    by how many days all are moved in the new file."""

    def __init__(self, start: int, end: int, days: str, planned: Planning) -> None:
        self.start, self.end, self.days, self.planned = start, end, days, planned
        self.move = 0

    def planned_of(self, leg: Leg) -> Chosen:
        """Returns what a leg has in this part."""
        return self.planned.get(leg.number, Planned(leg.type, 0))

    def of(self, leg: Leg) -> Optional[Held]:
        """Returns the leg's first and last date and its days of operation in this part, or None where it has no date in it."""
        start, end = max(self.start, leg.start), min(self.end, leg.end)
        days = "".join(it if it in self.days else " " for it in leg.days)
        if start > leg.start:
            start = next((it for it in range(start, min(end, start + 2 * FORTNIGHT) + 1) if self.has(leg, it)), end + 1)
        if end < leg.end:
            end = next((it for it in range(end, max(start, end - 2 * FORTNIGHT) - 1, -1) if self.has(leg, it)), start - 1)
        if end - start < FORTNIGHT:
            flown = {str(weekday_of(it)) for it in range(start, end + 1) if leg.operates(it)}
            is_cut = start > leg.start or end < leg.end
            days = "".join(it if it in flown or not is_cut else " " for it in days)
            if not flown & set(days):
                return None
        return (start, end, days) if days.strip() else None

    def has(self, leg: Leg, date: int) -> bool:
        """Returns whether a date is one of operation on a day of this part."""
        return leg.operates(date) and str(weekday_of(date)) in self.days


def parts_by_date(legs: Sequence[Leg], changes: Changes) -> List[Part]:
    """Cuts an itinerary before the first date of changes and behind the last: between them a date has what is planned on that date, and
    those that are alike are one part; all other dates stay as they are."""
    at, end = min(it.start for it in legs), max(it.end for it in legs)
    parts = []
    for first, last in weeks_of(sorted(changes)):
        parts.append(Part(at, first - 1, ALL_DAYS, {}))
        dates = [(str(weekday_of(it)), changes.get(it, {})) for it in range(first, last + 1)]
        parts.extend(Part(first, last, days, planned) for days, planned in alike(dates))
        at = last + 1
    # The rest of a week of a fortnight is cut off, so that later weeks are counted from one that operates.
    for cut in sorted({at + 6 - (at - 1 - it.start) % WEEK for it in legs if it.rate == "2"}):
        parts.append(Part(at, cut - 1, ALL_DAYS, {}))
        at = cut
    return [*parts, Part(at, end, ALL_DAYS, {})]


def weeks_of(dates: List[int]) -> Iterator[Tuple[int, int]]:
    """Yields the first and the last one of dates that lie within seven days, and then of those that are left."""
    while dates:
        within = [it for it in dates if it < dates[0] + WEEK]
        yield within[0], within[-1]
        dates = dates[len(within) :]


def alike(days: Iterable[Tuple[str, Planning]]) -> List[Tuple[str, Planning]]:
    """Returns days of the week with what is planned on them, those together that have the same."""
    groups: List[Tuple[str, Planning]] = []
    for day, planned in days:
        at = next((at for at, it in enumerate(groups) if it[1] == planned), None)
        if at is None:
            groups.append((day, planned))
        else:
            groups[at] = groups[at][0] + day, planned
    return groups


def parts_by_weekday(_: Sequence[Leg], changes: Changes) -> List[Part]:
    """Cuts an itinerary by days of operation: through its whole period a day of the week has what is planned on the date of that day,
    and all other days stay as they are."""
    planned: Dict[str, Planning] = {}
    for date, changed in sorted(changes.items()):
        planned.setdefault(str(weekday_of(date)), {}).update(changed)
    return [Part(0, OPEN, days, own) for days, own in alike((it, planned.get(it, {})) for it in ALL_DAYS)]
