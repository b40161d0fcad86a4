"""What is said where no plan is legal (status 4): the first causes that simple counts show, and what to try."""

import itertools
import os
from typing import Dict, Iterator, List, Sequence, Tuple

from fleetplan.errors import Unread
from fleetplan.schedule import Leg, Schedule
from fleetplan.texts import counted, listed
from fleetplan.times import DAY
from fleetplan.words import Call
from hints.reading import schedule_of, tell_unread
from hints.saying import Hint

SECTION = "what-solve-prints-and-writes"
# The most groups of fleets that are counted one by one.
MOST_GROUPS = 60
# The most causes of one kind that are told.
MOST_CAUSES = 3
# The flights that arrive at a station, and those that depart there.
Moves = Tuple[List[str], List[str]]
# What flights may do beside, by an option.
WAYS = {"windows": "depart at several times (--windows)", "optional": "be left out (--optional)"}


def explain(hint: Hint, command: str, call: Call) -> None:
    """Says why no plan is legal, as far as it is plain, and what to try."""
    try:
        causes = list(causes_of(schedule_of(call)))
    except Unread:
        causes = []
    for text in causes:
        hint.say(text)
    if not causes:
        hint.say("the tables don't show the cause at a look: proof.txt has it, as prices by which no plan can be legal.")
        hint.say("Try more pairs in costs.csv, more aircraft in fleets.csv, or other times in legs.csv.")
    ways = [means for option, means in WAYS.items() if not call.has(option)]
    if not tell_unread(hint, command, call) and ways and not causes:
        hint.say(f"Flights may also {' or '.join(ways)}.")
    if os.path.exists(os.path.join(call.folder, "plan.csv")):
        hint.say(f"{os.path.join(call.folder, 'plan.csv')} is of an earlier call: this one has found no plan, and left it as it was")
    hint.see(SECTION)


def causes_of(schedule: Schedule) -> List[str]:
    """Returns the causes that hold for certain, those of the first kind that has any."""
    for find in (legs_without_pair, legs_out_of_balance, legs_without_aircraft, pairs_out_of_balance, aircraft_wanted, nights_without_room):
        causes = list(find(schedule))
        if causes:
            more = [f"and {len(causes) - MOST_CAUSES} more of this kind"] if len(causes) > MOST_CAUSES else []
            return causes[:MOST_CAUSES] + more
    return []


def legs_without_pair(schedule: Schedule) -> Iterator[str]:
    """A leg that no fleet may fly."""
    none = [it.flight for it in schedule.must if not schedule.fleets_of[it.flight]]
    if none:
        yield f"no fleet may fly {listed(none)}: costs.csv has no record of {'it' if len(none) == 1 else 'them'}"


def legs_out_of_balance(schedule: Schedule) -> Iterator[str]:
    """A station at which more legs arrive than depart, or fewer."""
    for station in schedule.extra:
        comes = [it.flight for it in schedule.legs.values() if it.end == station]
        goes = [it.flight for it in schedule.legs.values() if it.start == station]
        stay = [it for it in comes if it not in schedule.skips], [it for it in goes if it not in schedule.skips]
        if stay != (comes, goes):
            yield from more_than_can_go(schedule, station, stay, (comes, goes))
        elif len(comes) != len(goes):
            yield (
                f"{schedule.each} {counted(len(comes), 'flight')} arrive{'s' if len(comes) == 1 else ''} at {station} and {len(goes)} "
                f"depart{'s' if len(goes) == 1 else ''}, and as many have to depart as arrive"
                f" (arriving {listed(comes) or 'none'}; departing {listed(goes) or 'none'})"
            )


def more_than_can_go(schedule: Schedule, station: str, must: Moves, may: Moves) -> Iterator[str]:
    """A station at which more legs have to arrive than may depart, or the other way round, where some may be left out."""
    for at, (one, other) in enumerate((("arrive", "depart"), ("depart", "arrive"))):
        if len(must[at]) > len(may[1 - at]):
            yield (
                f"{schedule.each} {listed(must[at])} {one}{'s' if len(must[at]) == 1 else ''} at {station} and may not be left out, and "
                f"{listed(may[1 - at]) or 'none'} {other}{'s' if len(may[1 - at]) < 2 else ''} there"
            )


def legs_without_aircraft(schedule: Schedule) -> Iterator[str]:
    """A leg whose fleets all have no aircraft."""
    for fleets in {tuple(schedule.fleets_of[it.flight]): None for it in schedule.must}:
        if not any(schedule.aircraft[it] for it in fleets):
            flights = [it.flight for it in schedule.must if tuple(schedule.fleets_of[it.flight]) == fleets]
            has = "has no aircraft" if len(fleets) == 1 else "have no aircraft"
            yield f"{listed(flights)} may be flown by {listed(fleets)} alone, which {has} in fleets.csv"


def groups(schedule: Schedule) -> List[Tuple[str, ...]]:
    """Returns the groups of fleets that are all that may fly some leg, single fleets first, and all fleets. A leg that may be left out
    has none."""
    found = {tuple(sorted(schedule.fleets_of[it.flight])): None for it in schedule.must}
    found[tuple(sorted(schedule.aircraft))] = None
    return sorted(found, key=lambda it: (len(it), it))[:MOST_GROUPS]


def pairs_out_of_balance(schedule: Schedule) -> Iterator[str]:
    """A station and a group of fleets that have to bring more legs there than they may fly away, or the other way round."""
    for group in groups(schedule):
        own = set(group)
        for at, other, arrive, depart in (("end", "start", "arrive", "depart"), ("start", "end", "depart", "arrive")):
            forced: Dict[str, List[str]] = {}
            free: Dict[str, List[str]] = {}
            for leg in schedule.legs.values():
                if leg.flight not in schedule.skips and own.issuperset(schedule.fleets_of[leg.flight]):
                    forced.setdefault(getattr(leg, at), []).append(leg.flight)
                if not own.isdisjoint(schedule.fleets_of[leg.flight]):
                    free.setdefault(getattr(leg, other), []).append(leg.flight)
            for station, flights in forced.items():
                if len(flights) > len(free.get(station, ())):
                    yield (
                        f"at {station} {listed(flights)} {arrive}{'s' if len(flights) == 1 else ''}, which {listed(group)} alone may "
                        f"fly, and of those that {depart} there {listed(group)} may fly {listed(free.get(station, ())) or 'none'}"
                    )


def aircraft_wanted(schedule: Schedule) -> Iterator[str]:
    """A minute in which more aircraft of a group of fleets are wanted than there are."""
    for group in groups(schedule):
        own, has = set(group), sum(schedule.aircraft[it] for it in group)
        flown = [surely(schedule, leg) for leg in schedule.must if own.issuperset(schedule.fleets_of[leg.flight])]
        flown = [(leg, busy) for leg, busy in flown if busy > 0]
        minutes = under_way(flown, schedule.minutes)
        most = max(minutes)
        is_all = len(group) == len(schedule.aircraft)
        which = "" if is_all else f" that {listed(group)} alone may fly"
        have = f"and fleets.csv has {has} aircraft {'in all' if is_all else f'of {listed(group)}'}"
        if most > has:
            yield f"at {schedule.moment(minutes.index(most))} {most} flights{which} are in the air or in their turn, {have}"
        elif len(flown) == len(schedule.legs) and schedule.used(flown) > has:
            yield f"the flights need {schedule.used(flown)} aircraft, however they are shared out, {have}"


def under_way(flown: Sequence[Tuple[Leg, int]], period: int) -> List[int]:
    """Returns of each minute of a period of so many how many of these flights are in the air or in their turn, each flown once in it."""
    changes = [0] * (period + 1)
    always = 0
    for leg, busy in flown:
        always += busy // period
        start, end = leg.departure, leg.departure + busy % period
        changes[start] += 1
        changes[min(end, period)] -= 1
        if end > period:
            changes[0] += 1
            changes[end - period] -= 1
    return [always + it for it in itertools.accumulate(changes[:period])]


def surely(schedule: Schedule, leg: Leg) -> Tuple[Leg, int]:
    """Returns a leg at its last time, and the minutes from then on in which an aircraft is away with it, whichever fleet flies it and
    whichever of its times is taken."""
    shifts = schedule.extras[leg.flight]
    busy = min(schedule.busy(leg, it) for it in schedule.fleets_of[leg.flight])
    return leg.moved(max(shifts), schedule.minutes), busy - max(shifts) + min(shifts)


def nights_without_room(schedule: Schedule) -> Iterator[str]:
    """A station with a limit at which more aircraft have to stay for a night."""
    for station, limit in schedule.parking.items():
        for day in range(1, schedule.period + 1):
            stay = least_stay(schedule, station, DAY * day)
            if stay > limit:
                night = "for the night" if schedule.period == 1 else f"when day {day} ends, at {schedule.clock(0)}"
                yield f"{stay} aircraft at least must stay at {station} {night}, and stations.csv has room for {limit} there"
                break


def least_stay(schedule: Schedule, station: str, end: int) -> int:
    """Returns how many aircraft at least stand at a station when a day ends, whichever fleets fly at whichever times: those that depart from
    then on before another one can be ready."""
    times = {it.flight: [it.departure + shift - end for shift in schedule.extras[it.flight]] for it in schedule.legs.values()}
    moves = [(max(at % schedule.minutes for at in times[it.flight]), 1) for it in schedule.must if it.start == station]
    for flight, leg in schedule.legs.items():
        ready = [at + schedule.busy(leg, fleet) for fleet in schedule.fleets_of[flight] for at in times[flight]]
        if leg.end == station and ready:
            moves.append((min(it % schedule.minutes for it in ready), -1))
    return max(itertools.accumulate((change for _, change in sorted(moves)), initial=0))
