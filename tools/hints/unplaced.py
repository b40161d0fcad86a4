"""What is said where named aircraft can't all come to maintenance in time (status 10), one line for each fleet: what helps."""

import os
import re
from collections import Counter
from typing import Callable, List, Match, NamedTuple, Sequence, Tuple

from fleetplan.schedule import Schedule
from fleetplan.texts import counted, quietly
from fleetplan.words import Call
from hints.places import Stand, stands_of
from hints.reading import schedule_of
from hints.saying import Hint, Where

SECTION = "what-due-prints"
# The most places that are shown.
MOST_PLACES = 20


class Told(NamedTuple):
    """What is said of a line: what is short, each place as it is, and what helps."""

    text: str
    places: Sequence[str] = ()
    more: Sequence[str] = ()


def explain(hint: Hint, call: Call, said: str) -> None:
    """Says of each fleet whose tails aren't placed what is short."""
    path = os.path.join(call.folder, "tails.csv")
    for line in said.splitlines():
        for form, tell in TELLERS:
            found = form.fullmatch(line)
            if found:
                told = tell(found, call, path)
                hint.fault(told.text, Where(path, found=line))
                for it in told.places:
                    hint.show(it)
                for it in told.more:
                    hint.say(it)
                break
    hint.see(SECTION)


def of_number(found: Match[str], _: Call, path: str) -> Told:
    """Says how many tails are too few or too many."""
    fleet, has, uses = found[1], int(found[2]), int(found[3])
    if has < uses:
        return Told(f"{fleet}: the plan uses {uses}, so name {uses - has} more in {path}")
    return Told(f"{fleet}: the plan uses {uses} alone, so take {has - uses} away from {path}: those that stay in reserve")


def of_late(found: Match[str], _: Call, __: str) -> Told:
    """Says how many tails come too late."""
    fleet, within, tails, starts = found[1], int(found[2]), int(found[3]), int(found[4])
    return Told(
        f"{fleet}: {tails} have to be at a station with maintenance {soon(within)}, and {starts} can: maintain {tails - starts} of them before, "
        "let a further station maintain, or solve with fewer --days"
    )


def of_mixed(found: Match[str], call: Call, path: str) -> Told:
    """Says that some tails have a place, and others none."""
    fleet, has, of = found[1], int(found[2]), int(found[3])
    text = f"{fleet}: {has} of its {of} aircraft {'has' if has == 1 else 'have'} a place in {path}, and they have all one or none"
    return Told(f"{text}: write in the column at where each of them is as {call.words[1][1]} begins, or take all places away")


def of_lacking(found: Match[str], call: Call, _: str) -> Told:
    """Says at which places tails lack and where there are too many, so from where to where an aircraft would have to be ferried."""
    fleet, place, tails, starts = found[1], found[2], int(found[3]), int(found[4])
    begin, are = ("begins", "is") if starts == 1 else ("begin", "are"), "is" if tails == 1 else "are"
    text = f"{fleet}: {counted(starts, 'line')} {begin[0]} at {place} on {call.words[1][1]}, and {tails or 'none'} of its aircraft {are} there"
    stands = quietly(stands_of, call, fleet) or []
    schedule = quietly(schedule_of, call)
    return Told(text, shown(stands, "from there"), ferries(stands, schedule) if schedule else ())


def of_late_at(found: Match[str], call: Call, _: str) -> Told:
    """Says how many tails of a place come too late, and with those of which other place they could change."""
    fleet, place, within, tails, starts = found[1], found[2], int(found[3]), int(found[4]), int(found[5])
    text = f"{fleet}: {tails} of its aircraft at {place} have to be at a station with maintenance {soon(within)}, and {starts} can from there"
    stands = quietly(stands_of, call, fleet, within) or []
    others = [it.place for it in stands if it.starts > it.tails]
    more = [f"change one with an aircraft at {others[0]} that has more nights left, by a ferry each way, or maintain it before"] if others else []
    return Told(text, shown(stands, "so soon"), more)


def soon(within: int) -> str:
    """Returns in how many nights in words."""
    return "tonight" if within == 1 else f"within {within} nights"


def shown(stands: Sequence[Stand], what: str) -> List[str]:
    """Returns the places with their aircraft and lines, a line of words for each."""
    return [f"{it.place}: {it.tails} aircraft, {counted(it.starts, 'line')} {what}" for it in stands[:MOST_PLACES]]


def ferries(stands: Sequence[Stand], schedule: Schedule) -> List[str]:
    """Says from where to where aircraft would have to go, so that each line has one. Nothing gets an aircraft into a flight."""
    free = [it.place for it in stands for _ in range(it.tails - it.starts)]
    wanted = [it.place for it in stands for _ in range(it.starts - it.tails)]
    found = []
    for (start, end), number in Counter(zip(free, wanted)).items():
        if end in schedule.legs:
            found.append(f"no ferry gets an aircraft into {end}: one that is in it as the day begins has {end} in the column at")
        elif start in schedule.legs and schedule.legs[start].end == end:
            found.append(f"the one in {start} lands at {end}, but only when the day has begun: another one has to be there before")
        else:
            found.append(f"ferry {'one' if number == 1 else number} from {landing(start, schedule)} to {end}, or begin on another date")
    return list(dict.fromkeys(found))


def landing(place: str, schedule: Schedule) -> str:
    """Returns a station, or where a flight lands in words."""
    return f"{schedule.legs[place].end}, where {place} lands," if place in schedule.legs else place


_FLEET, _PLACE = "([A-Z0-9]{1,8})", "([A-Z0-9]{1,8})"
Teller = Callable[[Match[str], Call, str], Told]
# Of each line what says what helps.
TELLERS: Sequence[Tuple["re.Pattern[str]", Teller]] = (
    (re.compile(rf"{_FLEET}: tails (\d+) of (\d+)"), of_number),
    (re.compile(rf"{_FLEET}: late within (\d+), tails (\d+), starts (\d+)"), of_late),
    (re.compile(rf"{_FLEET}: at (\d+) of (\d+)"), of_mixed),
    (re.compile(rf"{_FLEET}: at {_PLACE} tails (\d+), starts (\d+)"), of_lacking),
    (re.compile(rf"{_FLEET}: late at {_PLACE} within (\d+), tails (\d+), starts (\d+)"), of_late_at),
)
