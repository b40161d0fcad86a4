"""Onward flights: which flight the aircraft of a leg flies next, as bytes 138 to 146 of its line say."""

from typing import Dict, Iterator, List, NamedTuple, Optional, Sequence, Tuple

from schedule_files.days import DATE_VARIATIONS, TIMES, Dates
from schedule_files.layout import LAYOVER, LEG, ONWARD
from schedule_files.reading import Schedule
from schedule_files.selecting import Flown

# The layovers that say that the aircraft goes on on the day of its arrival.
SAME_DAY = " 0"


class End(NamedTuple):
    """The departure or the arrival of a leg on a date, as its line writes it: its day, and the minute of that."""

    day: int
    minute: int


def end_of(schedule: Schedule, it: Flown, name: str) -> End:
    """Returns the departure or the arrival of a leg, in the time of the file."""
    line = schedule.lines[it.leg.number - 1]
    days = DATE_VARIATIONS[LEG[f"{name}'s date variation"].of(line)]
    return End(it.operates + days, TIMES[LEG[f"aircraft's time of {name}"].of(line)])


def link_of(schedule: Schedule, it: Flown) -> Optional[Tuple[str, int, str, bool]]:
    """Returns the flight that a leg's aircraft flies next, by airline, number and suffix, and whether on the day of its arrival; None where
    the line says none. A link that isn't of its form is refused."""
    line = schedule.lines[it.leg.number - 1]
    text = ONWARD.of(line)
    if not ONWARD.form.fullmatch(text):
        raise ONWARD.fault(schedule.path, it.leg.number, line)
    return (text[:3], int(text[3:7]), text[8], LAYOVER.of(line) in SAME_DAY) if text.strip() else None


def pairs(schedule: Schedule, flown: Sequence[Flown], dates: Dates) -> Iterator[Tuple[Flown, Flown]]:
    """Yields the legs with an onward flight of the day of their arrival, each with that: the first that departs from there on that day, at
    that time or later. Where tables are of several days, a day is as good as that a period later."""
    departing: Dict[object, List[Tuple[int, int, Flown]]] = {}
    for at, it in enumerate(flown):
        departs = end_of(schedule, it, "departure")
        flight = it.leg.airline, it.leg.flight, it.leg.suffix
        departing.setdefault((flight, it.leg.origin, departs.day % dates.count), []).append((departs.minute, at, it))
    for it in flown:
        link = link_of(schedule, it)
        if link and link[3]:
            arrives = end_of(schedule, it, "arrival")
            found = departing.get((link[:3], it.leg.destination, arrives.day % dates.count), [])
            behind = [own for own in found if own[0] >= arrives.minute]
            if behind:
                yield it, min(behind)[2]


def told(schedule: Schedule, flown: Sequence[Flown], dates: Dates) -> str:
    """Returns what is told of onward flights."""
    links = [it for it in (link_of(schedule, own) for own in flown) if it]
    made, others = sum(1 for _ in pairs(schedule, flown, dates)), sum(not it[3] for it in links)
    rest = f", {len(links) - made - others} name a flight that isn't among these legs then" if len(links) > made + others else ""
    return f"onward flights: {made} are through pairs, {others} are of another day (byte 145){rest}"
