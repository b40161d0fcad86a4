"""What is said of the rotations that are refused, one line for each: what helps."""

import math
import re
from typing import Dict, List, Match, NamedTuple, Optional, Sequence, Tuple

from fleetplan.texts import counted, listed, quietly
from fleetplan.words import MOST_MAINTENANCE, MOST_SEARCH, Call
from hints.saying import Hint

SECTION = "what-became-of-a-rotation-and-what-to-do"


class LeastNight(NamedTuple):
    """Minutes of a least night that is smaller than the one that was asked for, the greatest that gives a fleet a tour, or where that isn't
    sure the greatest that can."""

    minutes: int
    is_sure: bool


# Of fleets what was said of their rotations.
Answers = Sequence[Tuple[str, str]]
# The words of a refused rotation, as they are printed.
REFUSED = re.compile(
    r"(?:rotation )?([A-Z0-9]{1,8}): "
    r"(too few nights (\d+) of (\d+)|apart (\d+) legs|none|visits spent|tour of \d+ legs in \d+ days|unused)( without throughs)?"
)


def explain(hint: Hint, command: str, call: Call, answers: Answers) -> None:
    """Says of each refused rotation what helps. `answers` are the fleets and what was said of their rotations."""
    told: Dict[str, List[str]] = {}
    shorter = shorter_nights(call, [fleet for fleet, answer in answers if is_none(answer)])
    for fleet, answer in answers:
        text = advice(answer, call, shorter.get(fleet))
        if text:
            told.setdefault(text, []).append(fleet)
    for text, fleets in told.items():
        hint.say(f"{listed(fleets)}: {text}")
    days = more_days([it for it in answers if it[0] not in shorter], call)
    if call.command in ("solve", "tails", "due") and (days or shorter):
        mended = Call(call.with_option("least-night", str(min(it.minutes for it in shorter.values())))) if shorter else call
        hint.mend([command, *(mended.with_option("days", str(days)) if days else mended.all)])
    if told:
        hint.see(SECTION)


def is_none(answer: str) -> bool:
    """Returns whether an answer says that there are tours, and that none is kept."""
    found = REFUSED.fullmatch(f"F: {answer}")
    return bool(found) and found is not None and found[2] == "none"


def shorter_nights(call: Call, fleets: Sequence[str]) -> Dict[str, LeastNight]:
    """Returns of fleets that have no kept tour the greatest least night that helps, as far as that is found."""
    found: Dict[str, LeastNight] = {}
    if fleets and call.command in ("solve", "tails", "due") and call.value("least-night"):
        from hints import least_nights

        found = quietly(least_nights.helping, call, fleets) or {}
    return found


def more_days(answers: Answers, call: Call) -> Optional[int]:
    """Returns the days that are worth a try for all fleets that lack nights or have no tour, or None."""
    days, wanted = call.value("days"), []
    for _, answer in answers:
        found = REFUSED.fullmatch(f"F: {answer}")
        if found and found[3] and int(found[3]):
            wanted.append(math.ceil(int(found[4]) / int(found[3])))
        elif found and found[2] == "none":
            wanted.append(days + 1)
    best = max(wanted, default=0)
    return best if days < best <= MOST_MAINTENANCE else None


def advice(answer: str, call: Call, shorter: Optional[LeastNight] = None) -> Optional[str]:
    """Returns what helps against an answer, or None where the fleet has a tour or no flights."""
    found = REFUSED.fullmatch(f"F: {answer}")
    if not found:
        return None
    text = plain_advice(found, call.value("days"), call.value("visits"), shorter)
    if found[6] and text is None:
        return "no tour with its chosen through flights was found: fly this one, or take a pair of it away from throughs.csv"
    return f"{text}; nor was there a tour with its chosen through flights" if found[6] else text


def plain_advice(found: Match[str], days: int, visits: int, shorter: Optional[LeastNight]) -> Optional[str]:
    """Returns what helps against an answer, whatever was said of through flights."""
    words = found[2]
    if words.startswith("too few"):
        has, of = int(found[3]), int(found[4])
        if has == 0:
            nights = "no night is at a station with maintenance, so no --days helps"
            return f"{nights}: let a station maintain where it stands at the day start, or take another --day-start"
        least = math.ceil(of / has)
        more = f"--days {least} is the least that can do" if least <= MOST_MAINTENANCE else "no --days is enough"
        are = "is" if has == 1 else "are"
        return f"{has} of its {of} nights {are} at a station with maintenance: {more}, or let a further station maintain"
    if words.startswith("apart"):
        return f"{found[5]} of its flights never meet the others: let two aircraft meet at a station, or make two fleets of it"
    if words == "none":
        more = f"--days {days + 1}" if days < MOST_MAINTENANCE else "maintenance at a further station"
        if shorter:
            nights = f"every tour goes {counted(days, 'night')} without one long enough for maintenance somewhere"
            is_sure = "is the most that gives a tour" if shorter.is_sure else "is the most that can help"
            days_too = f"allow {more}, or " if days < MOST_MAINTENANCE else ""
            return f"{nights}: --least-night {shorter.minutes} {is_sure}; else {days_too}let a further station maintain"
        return f"every tour goes {days} nights without maintenance somewhere: allow {more}, or let a further station maintain"
    if words == "visits spent":
        more = "more --visits" if visits < MOST_SEARCH else "one more of --days"
        return f"the search was cut off, so there may be a tour: allow {more}"
    return None


def of_summary(text: str) -> Answers:
    """Returns the fleets and what became of their rotations, as a summary, tails or due tell it, in lines."""
    return [(it[1], it[0].partition(": ")[2]) for it in map(REFUSED.fullmatch, text.splitlines()) if it]
