"""Which smaller least night gives fleets a tour that have none: by the stays that their flights may have, and what `tails` says of some."""

import datetime
import time
from typing import Dict, List, Optional, Sequence

from fleetplan.calls import tails
from fleetplan.program import PROGRAM, Runner
from fleetplan.schedule import Plan, Schedule
from fleetplan.times import DAY
from fleetplan.words import Call
from hints.reading import options_of_tails, schedule_of
from hints.rotations import LeastNight

# What all further runs of the program may take together.
SECONDS = 5
# A first date for them. What becomes of a rotation is the same on each.
DATE = datetime.date(2026, 1, 1)


def helping(call: Call, fleets: Sequence[str]) -> Dict[str, LeastNight]:
    """Returns of fleets the greatest least night below that of a call with which they have a tour; of one that has none with 0 nothing."""
    ends = time.monotonic() + SECONDS
    settled, plan = schedule_of(call).planned()
    found = {}
    for fleet in fleets:
        stays = [it for it in stays_of(settled, plan, fleet) if it < call.value("least-night")]
        best = greatest(call, fleet, [0, *stays], ends)
        if best:
            found[fleet] = best
    return found


def stays_of(schedule: Schedule, plan: Plan, fleet: str) -> List[int]:
    """Returns the stays that a night of the fleet at a station that maintains may have, each once: of a flight that lands there, up to each
    that departs there."""
    flown = schedule.flown_by(plan, fleet)
    found = set()
    for leg, busy in flown:
        ready = leg.departure + busy
        for following, _ in flown:
            departs = ready + (following.departure - ready) % schedule.minutes
            is_night = departs // DAY > ready // DAY and leg.end == following.start
            if is_night and schedule.maintains[leg.end]:
                found.add(departs - leg.departure - leg.block)
    return sorted(found)


def greatest(call: Call, fleet: str, stays: Sequence[int], ends: float) -> Optional[LeastNight]:
    """Returns the greatest of rising stays with which a fleet has a tour, by trying those halfway; or None where it has none with the
    first."""
    low, high = 0, len(stays)
    if not has_tour(call, fleet, stays[0], ends):
        return None
    while high - low > 1:
        middle = (low + high) // 2
        helps = has_tour(call, fleet, stays[middle], ends)
        if helps is None:
            return LeastNight(stays[-1], False)
        low, high = (middle, high) if helps else (low, middle)
    return LeastNight(stays[low], True)


def has_tour(call: Call, fleet: str, minutes: int, ends: float) -> Optional[bool]:
    """Returns whether a fleet has a tour with a least night, or None where no time is left to know."""
    left = ends - time.monotonic()
    if left <= 0:
        return None
    options = {**options_of_tails(call), "least_night": minutes}
    options.pop("first_day", None)
    return fleet not in tails(call.folder, DATE, 1, Runner(PROGRAM, left), **options).causes
