"""What is said of a plan that is refused (status 9): its flights and fleets, with the numbers in words."""

import os
import re
from typing import Callable, Dict, List, Optional, Pattern, Tuple

from fleetplan.records import Record, names_in, record_of, rows_of
from fleetplan.tables import HEADERS, NO_FLEET, SHIFTED, Header
from fleetplan.texts import counted, listed, quietly
from fleetplan.words import Call
from hints.reading import schedule_of, tell_no_shifts, tell_option
from hints.refused_tables import show
from hints.saying import Hint, Where
from hints.table_faults import Told, unknown

PLAN = "the-plan-and-its-kinds-1-to-5"
JUDGE = "what-judge-prints"
UNREAD = re.compile(r"plan refused: record (\d+) kind (\d+)")
NOT_ALLOWED = re.compile(r"not allowed: (\w+)")
UNBALANCED = re.compile(r"unbalanced: (\w+) at (\w+), in (\d+), out (\d+)")
TOO_MANY = re.compile(r"too many: (\w+) used (\d+) of (\d+)")
CROWDED = re.compile(r"crowded: (\w+) day (\d+) parked (\d+) of (\d+)")
MEANS = {
    1: "the first record of plan.csv isn't its header",
    2: "this record of plan.csv has too many or too few fields, or one that isn't UTF-8",
    3: "another flight stands at this place in legs.csv",
    4: "this record names a fleet that fleets.csv doesn't have, or a shift that the flight hasn't",
    5: "plan.csv has a record too many or too few",
}


# What the other lines mean, where the tables don't tell more.
OTHERS = {
    NOT_ALLOWED: "costs.csv has no cost for this flight with its fleet in plan.csv, or it may not be left out",
    UNBALANCED: "each day, or in the period, more or fewer aircraft of this fleet come to the station than leave it",
    TOO_MANY: "the plan needs more aircraft of this fleet than fleets.csv has",
    CROWDED: "more aircraft stay at this station for the night than stations.csv lets (its column parking)",
}


def explain(hint: Hint, command: str, call: Call, said: str) -> None:
    """Says what the line of a refused plan means."""
    unread, plan = UNREAD.fullmatch(said), os.path.join(call.folder, "plan.csv")
    if unread and int(unread[2]) in MEANS:
        kind = int(unread[2])
        record, told = quietly(look, call, int(unread[1]), kind) or (None, Told(MEANS[kind]))
        show(hint, plan, record, [told])
        quietly(tell_kind, hint, command, call, record, kind)
        hint.see(PLAN)
    for form, tell in TELLERS.items():
        found = form.fullmatch(said)
        if found:
            first, *others = quietly(tell, call, *found.groups()) or [OTHERS[form]]
            hint.fault(first, Where(plan, found=said))
            for text in others:
                hint.say(text)
            tell_solve(hint, command, call)
            hint.see(JUDGE)


def tell_solve(hint: Hint, command: str, call: Call) -> None:
    """Shows the words that find a legal plan."""
    hint.say("solve looks for a legal plan, which takes the place of this one:")
    hint.mend([command, "solve", call.folder, *call.reading])


def header_of(call: Call) -> Header:
    """Returns the header that a plan has by the words of a call."""
    return SHIFTED if call.has("windows") else HEADERS["plan.csv"]


def tell_kind(hint: Hint, command: str, call: Call, record: Record, kind: int) -> None:
    """Says which option of the words doesn't go with the plan."""
    if kind == 1 and tuple(record.texts) == SHIFTED:
        tell_option(hint, command, call, "it tells a shift of each flight, as a plan", "windows")
    elif kind == 1 and tuple(record.texts) == HEADERS["plan.csv"]:
        tell_no_shifts(hint, command, call, "plan")
    elif kind == 4 and record.texts[1] == NO_FLEET and not call.has("optional"):
        hint.say("a flight is left out (-) by a plan of a call with --optional alone:")
        hint.mend([command, *call.with_more("--optional")])


def look(call: Call, number: int, kind: int) -> Optional[Tuple[Optional[Record], Told]]:
    """Returns the record of the plan and what is wrong with it, or nothing where the file doesn't show that (any more)."""
    folder, header = call.folder, header_of(call)
    record = record_of(os.path.join(folder, "plan.csv"), number)
    flights = names_in(os.path.join(folder, "legs.csv"))
    told = column = wanted = None
    if kind == 1 and record and tuple(record.texts) != header:
        told, wanted = f"the header is {','.join(header)}", ",".join(header)
    elif kind == 2 and record and len(record.fields) != len(header):
        told = f"it has {counted(len(record.fields), 'field')}, and {len(header)} are wanted: {','.join(header)}"
        wanted = ",".join(header)
    elif kind == 3 and record and number - 2 < len(flights) and record.texts[0] != flights[number - 2]:
        told = f"here {flights[number - 2]} is due: plan.csv has the flights of legs.csv in their order"
        column, wanted = header[0], flights[number - 2]
    elif kind == 4 and record:
        told = wrong_choice(call, *record.texts)
    elif kind == 5 and record and number - 1 > len(flights):
        told = f"legs.csv has {counted(len(flights), 'flight')}, and this record comes after the last of them"
    elif kind == 5 and record is None and number - 2 < len(flights):
        told = f"plan.csv ends where {flights[number - 2]} is due: legs.csv has {counted(len(flights), 'flight')}"
    found = None if record is None else record.texts[0] if column else str(record)
    return (record, Told(told, column, found, wanted)) if told else None


def wrong_choice(call: Call, flight: str, fleet: str, *shifts: str) -> Optional[str]:
    """Returns why a fleet isn't one, or the shift beside it is none of the flight's; or None."""
    fleets = names_in(os.path.join(call.folder, "fleets.csv"))
    if fleet == NO_FLEET and not call.has("optional"):
        return f"{NO_FLEET} is no fleet of fleets.csv"
    if fleet not in (NO_FLEET, *fleets):
        return unknown(fleet, "fleets.csv", fleets)
    may = {0} if fleet == NO_FLEET else {0, *(int(shift) for it, shift, _ in rows_of(call.folder, "windows.csv") if it == flight)}
    if not shifts or shifts[0] in map(str, may):
        return None
    which = "0 alone, since it is left out" if fleet == NO_FLEET else listed(map(str, sorted(may)))
    return f"the shift of {flight} is {shifts[0] or 'empty'}, and it may be {which}"


def tell_pair(call: Call, flight: str) -> List[str]:
    """Returns what is said of a flight that its fleet may not fly, or nothing where the tables don't show that (any more)."""
    schedule, plan = schedule_of(call).planned()
    fleet = plan[flight]
    if (flight, fleet) in schedule.cost:
        return []
    if fleet == NO_FLEET:
        return [f"plan.csv leaves {flight} out, and optional.csv has no record of it"]
    may = schedule.fleets_of[flight]
    return [
        f"plan.csv has {fleet} fly {flight}, and costs.csv has no record {flight},{fleet}",
        f"{flight} may be flown by {listed(may)}" if may else f"no fleet may fly {flight}: costs.csv has no record of it",
    ]


def tell_balance(call: Call, fleet: str, station: str, came: str, went: str) -> List[str]:
    """Returns the same of a fleet that comes to a station more often, or less, than it leaves."""
    (schedule, plan), comes, goes = schedule_of(call).planned(), int(came), int(went)
    own = [it for it in schedule.legs.values() if plan[it.flight] == fleet]
    into = [f"{it.flight} at {schedule.moment(it.departure + it.block)}" for it in own if it.end == station]
    out = [f"{it.flight} at {schedule.moment(it.departure)}" for it in own if it.start == station]
    if (len(into), len(out)) != (comes, goes):
        return []
    arrive, depart = counted(comes, f"flight of {fleet} arrives", f"flights of {fleet} arrive"), counted(goes, "departs", "depart")
    more, fewer = ("arrives", "departs") if comes > goes else ("departs", "arrives")
    return [
        f"{schedule.each} {arrive} at {station}, and {depart}",
        f"arriving: {listed(into) or 'none'}; departing: {listed(out) or 'none'}",
        f"give another fleet one that {more}, or {fleet} one more that {fewer}",
    ]


def tell_use(call: Call, fleet: str, uses: str, there: str) -> List[str]:
    """Returns the same of a fleet of which more aircraft are wanted than there are."""
    (schedule, plan), used, has = schedule_of(call).planned(), int(uses), int(there)
    flown = schedule.flown_by(plan, fleet)
    need = schedule.needs(flown)
    aloft = sum((leg.departure + busy) // schedule.minutes for leg, busy in flown)
    if sum(need.values()) + aloft != used or schedule.aircraft[fleet] != has:
        return []
    where = [f"{number} at {station}" for station, number in need.items() if number]
    where += [f"{aloft} in flight or in a turn"] if aloft else []
    return [
        f"the plan needs {used} aircraft of {fleet}, and fleets.csv has {has}: {used - has} too few",
        f"at the day start, {schedule.moment(0)}, they are: {listed(where)}",
        f"give flights of {fleet} to other fleets, move flights apart, or raise its aircraft in fleets.csv",
    ]


def tell_crowd(call: Call, station: str, when: str, stays: str, room: str) -> List[str]:
    """Returns the same of a station at which more aircraft stay than may."""
    (schedule, plan), day, parked, cap = schedule_of(call).planned(), int(when), int(stays), int(room)
    stay = {fleet: schedule.stands(schedule.flown_by(plan, fleet), station, day) for fleet in schedule.aircraft}
    if sum(stay.values()) != parked or schedule.parking.get(station) != cap:
        return []
    night = f"at the day start, {schedule.clock(0)}," if schedule.period == 1 else f"when day {day} ends, at {schedule.clock(0)},"
    return [
        f"{night} {counted(parked, 'aircraft stands', 'aircraft stand')} at {station}, and stations.csv has room for {cap}: {parked - cap} too many",
        f"they are: {listed([f'{number} of {fleet}' for fleet, number in stay.items() if number])}",
        "fly one away in the evening, or raise the limit (parking) in stations.csv",
    ]


# What tells more of a line, by its form.
TELLERS: Dict[Pattern[str], Callable[..., List[str]]] = {NOT_ALLOWED: tell_pair, UNBALANCED: tell_balance, TOO_MANY: tell_use, CROWDED: tell_crowd}
