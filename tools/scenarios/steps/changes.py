"""The changes of tables that a scenario tells in a few words each."""

import re
from fractions import Fraction
from typing import Callable, Dict, Set, Tuple

from fleetplan.errors import Unread
from fleetplan.forms import MOST_AIRCRAFT, MOST_PARKED, MOST_TURN, TRILLION
from fleetplan.tables import DATED, HEADERS
from fleetplan.times import DAY, clock, minute_of
from steps.changing import CODE, FACTOR, NAME, Change, Reader, Step, Tables, by_part, record_of, times
from steps.figures import DEMAND, demand, fuel
from steps.flagged import FLAGGED

# Where a record of a station has its limit, if it has one.
PARKING = len(HEADERS["stations.csv"])


def read_change(text: str) -> Change:
    """Returns what a text changes, or raises Unread."""
    name, *words = text.split() or [""]
    if name not in CHANGES:
        raise Unread(f'no change is named "{name}", there are: {", ".join(form for form, *_ in CHANGES.values())}')
    form, pattern, change = CHANGES[name]
    found = re.fullmatch(pattern, " ".join(words))
    read = change(*found.groups()) if found else None
    if not read:
        raise Unread(f'"{text}" doesn\'t read, it should be as {form}')
    return read


def of_fleet(fleet: str, step: Step, column: int, most: int, has: str) -> Callable[[Tables], None]:
    """Returns what changes a number of a fleet's record by a step, which has to stay within 0 and `most`. `has` says what the fleet has, with {} in
    the place of the number."""

    def change(tables: Tables) -> None:
        row = record_of(tables, "fleets.csv", fleet)
        number = step.of(int(row[column]))
        if not 0 <= number <= most:
            raise Unread(f"fleets.csv gives {fleet} {has.format(row[column])}, and it may have 0 to {most}")
        row[column] = str(number)

    return change


def aircraft(fleet: str, sign: str, count: str) -> Change:
    """Another number of aircraft."""
    step = Step(sign, int(count))
    number = "one" if step.number == 1 else str(step.number)
    told = step.told(f"{number} {fleet} in all", f"{number} {fleet} more", f"{number} {fleet} less", f"as many {fleet}")
    return Change(of_fleet(fleet, step, 1, MOST_AIRCRAFT, "{} aircraft"), told)


def turn(fleet: str, sign: str, count: str) -> Change:
    """Another number of minutes from landing to the next departure."""
    step = Step(sign, int(count))
    minutes = f"{step.number} minutes"
    told = f"{fleet} turns {step.told(f'in {minutes}', f'{minutes} slower', f'{minutes} faster', 'as fast')}"
    return Change(of_fleet(fleet, step, 2, MOST_TURN, "a turn of {} minutes"), told)


def block(start: str, end: str, sign: str, count: str) -> Change:
    """So many minutes more or less in the air, from one station to another: the legs depart when they do, and arrive later or earlier."""
    step = Step(sign, int(count))

    def change(tables: Tables) -> None:
        legs = [it for it in tables["legs.csv"] if (it[-4], it[-2]) == (start, end)]
        if not legs:
            raise Unread(f"legs.csv has no flight from {start} to {end}")
        for row in legs:
            departs, has = minute_of(row[-3]), (minute_of(row[-1]) - minute_of(row[-3])) % DAY
            if not 0 < step.of(has) < DAY:
                raise Unread(f"{row[0]} takes {has} minutes, and a leg may take 1 to {DAY - 1}")
            row[-1] = clock(departs + step.of(has))

    told = step.told("", f"{step.number} minutes longer", f"{step.number} minutes less", "as long")
    return Change(change, f"{start} to {end} takes {told}")


def cost(fleet: str, by: str) -> Change:
    """All costs of a fleet times a factor."""
    factor = Fraction(by)

    def change(tables: Tables) -> None:
        record_of(tables, "fleets.csv", fleet)
        for row in tables["costs.csv"]:
            if row[1] == fleet:
                price = times(int(row[2]), factor)
                if abs(price) > TRILLION:
                    raise Unread(f"{row[0]} would cost {price} with {fleet}, and a cost is {TRILLION} at most")
                row[2] = str(price)

    return Change(change, f"{fleet} costs {by_part(factor)}")


def drop_leg(flight: str) -> Change:
    """A leg that isn't flown, so that no cost and no through pair speaks of it."""

    def change(tables: Tables) -> None:
        record_of(tables, "legs.csv", flight)
        drop(tables, {flight})

    return Change(change, f"{flight} isn't flown")


def parking(station: str, limit: str) -> Change:
    """Another limit of how many aircraft may stay at a station for a night, or `-` for any number."""

    def change(tables: Tables) -> None:
        if limit != "-" and int(limit) > MOST_PARKED:
            raise Unread(f"{station} would have room for {limit} aircraft, and a limit is {MOST_PARKED} at most")
        row = record_of(tables, "stations.csv", station)
        for it in tables["stations.csv"]:
            it[PARKING:] = it[PARKING:] or ["-"]
        row[PARKING] = limit

    return Change(change, f"{station} has room for {'any number' if limit == '-' else limit} at night")


def only_day(day: str) -> Change:
    """The legs of one day of a period alone, as a schedule of one day."""

    def change(tables: Tables) -> None:
        legs = tables["legs.csv"]
        if any(len(it) != len(DATED) for it in legs):
            raise Unread("legs.csv tells no day of its flights")
        drop(tables, {it[0] for it in legs if int(it[1]) != int(day)})
        for it in legs:
            it[1] = "1"

    return Change(change, f"day {day} alone")


def window(flight: str, shift: str, extra: str) -> Change:
    """A leg that may depart so many minutes later, or earlier, for so much more."""
    minutes = int(shift)
    told = f"{flight} may depart {abs(minutes)} minutes {'earlier' if minutes < 0 else 'later'} for {int(extra)}"
    return Change(record_more("windows.csv", flight, shift, extra), told)


def optional(flight: str, skip: str) -> Change:
    """A leg that may be left out, for so much."""
    return Change(record_more("optional.csv", flight, skip), f"{flight} may be left out for {int(skip)}")


def record_more(name: str, flight: str, *numbers: str) -> Callable[[Tables], None]:
    """Returns what adds a record of a leg to a table that may not stand there yet."""

    def change(tables: Tables) -> None:
        record_of(tables, "legs.csv", flight)
        tables.setdefault(name, []).append([flight, *numbers])

    return change


def drop(tables: Tables, flights: Set[str]) -> None:
    """Takes flights away, with all that speaks of them."""
    for name in {"legs.csv", "costs.csv", *FLAGGED.values()} & set(tables):
        tables[name][:] = [it for it in tables[name] if it[0] not in flights]
    tables["throughs.csv"][:] = [it for it in tables["throughs.csv"] if flights.isdisjoint(it[:2])]


# Of each change the form that is told, that of its words, and what reads them.
CHANGES: Dict[str, Tuple[str, str, Reader]] = {
    "aircraft": ("aircraft FLEET -1 (or +1, or 5)", f"{NAME} ([+-]?)([0-9]{{1,3}})", aircraft),
    "turn": ("turn FLEET +5 (or -5, or 40)", f"{NAME} ([+-]?)([0-9]{{1,3}})", turn),
    "block": ("block STATION STATION +10 (or -10)", f"{CODE} {CODE} ([+-])([0-9]{{1,3}})", block),
    "cost": ("cost FLEET *1.1", f"{NAME} {FACTOR}", cost),
    "drop-leg": ("drop-leg FLIGHT", r"(\S+)", drop_leg),
    "parking": ("parking STATION 2 (or -)", r"(\S+) (-|[0-9]{1,5})", parking),
    "only-day": ("only-day DAY", "([1-7])", only_day),
    "window": ("window FLIGHT 10 5", r"(\S+) (-?[0-9]{1,3}) (-?[0-9]{1,13})", window),
    "optional": ("optional FLIGHT 30", r"(\S+) (-?[0-9]{1,13})", optional),
    "demand": ("demand *0.8 (or demand FLIGHT *0.8, or demand market 0.15 seed 7, or demand day 0.15 seed 7)", DEMAND, demand),
    "fuel": ("fuel *1.5", FACTOR, fuel),
}
# The flag without which the program wouldn't read the table that a change adds to.
FLAG_OF = {"window": "--windows", "optional": "--optional"}
