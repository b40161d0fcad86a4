"""Flights in words: what stands in the table, in a bar, above it and below the pointer."""

from dataclasses import dataclass, field
from typing import Dict, List, Optional, Tuple

from drawing.calendars import Calendar
from drawing.colours import Palette
from drawing.flights import Departure, Ground
from drawing.plans import Plan, Row
from drawing.templating import signed
from drawing.zones import local_times
from fleetplan.tables import NO_FLEET
from fleetplan.times import DAY


@dataclass
class Leg:
    """A flight on one of its dates, in words. `key` is its date as `tails` tells it, `wait` the minutes beyond the turn before the next
    flight of the same day, and `before` and `after` are the numbers of its neighbours, -1 where the chart has none."""

    flight: str
    fleet: str
    aircraft: str
    day: str
    start: str
    dep: str
    end: str
    arr: str
    ready: str
    nights: str
    wait: Optional[int]
    cost: int
    others: List[Tuple[str, int]]
    notes: List[str]
    key: str
    before: int = -1
    after: int = -1
    following: str = ""

    @property
    def then(self) -> str:
        """What follows: the next flight and the wait for it, or nights."""
        return self.nights if self.wait is None else f"{self.following}, wait {self.wait} min"

    @property
    def dearer(self) -> str:
        """By how much it would be dearer with each other fleet."""
        return ", ".join(f"{fleet} {signed(cost - self.cost)}" for fleet, cost in self.others)


@dataclass
class Teller:
    """Says of a flight what stands beside its number, above it and below the pointer. `numbers` has each flight of the chart, by its name
    and date."""

    plan: Plan
    palette: Palette
    numbers: Dict[Tuple[str, str], int] = field(default_factory=dict)

    def told(self, flown: Departure, row: Row) -> Tuple[str, str, str]:
        """Returns the kinds of a bar, its mark, and its title."""
        return self.kinds(flown), self.mark(flown), self.title(flown, row)

    def kinds(self, flown: Departure) -> str:
        """Returns the kinds of a bar: the colour of its fleet, and what it is beside a flight."""
        is_flown = flown.fleet != NO_FLEET
        found = [self.palette.kind(flown.fleet) if is_flown else "out"]
        found += ["hatched"] if is_flown and self.palette.is_hatched(flown.fleet) else []
        found += ["optional"] if is_flown and flown.leg.flight in self.plan.schedule.skips else []
        found += ["moved"] if flown.leg.shift else []
        found += ["changed"] if self.plan.change_of(flown.leg.flight) else []
        return " ".join(found)

    def mark(self, flown: Departure) -> str:
        """Returns what stands above a bar: its shift, what it was in the other plan, and what it costs to leave it out."""
        leg, change = flown.leg, self.plan.change_of(flown.leg.flight)
        found = [f"{leg.shift:+} min".replace("-", "−")] if leg.shift else []
        if change and change.is_refleeted:
            found.append(f"was {named(change.fleets[0])}")
        if change and change.is_moved:
            found.append(f"was {self.plan.calendar.clock(change.departs[0])}")
        if flown.fleet == NO_FLEET:
            found.append(f"{self.plan.schedule.cost[leg.flight, NO_FLEET]:,}")
        return " · ".join(found)

    def title(self, flown: Departure, row: Row) -> str:
        """Returns what is shown of a flight below the pointer."""
        calendar, leg = self.plan.calendar, flown.leg
        departs, lands, ready = (calendar.moment(it + row.start) for it in (flown.departs, flown.lands, flown.ready))
        head = f"{leg.flight} {leg.start} {departs} to {leg.end} {lands}"
        if flown.fleet == NO_FLEET:
            return "\n".join([head, *self.notes(flown)])
        cost = self.plan.schedule.cost[leg.flight, flown.fleet]
        return "\n".join([f"{head}, ready {ready}", f"{flown.fleet}, cost {cost:,}", *self.notes(flown)])

    def notes(self, flown: Departure) -> List[str]:
        """Returns what is to be said of a flight beside its times."""
        plan, leg = self.plan, flown.leg
        at = plan.calendar.day_start
        local = local_times(plan.zones, leg.flight, flown.departs + at, flown.lands + at)
        found = [local] if local else []
        if leg.shift:
            found.append(f"{abs(leg.shift)} minutes {'later' if leg.shift > 0 else 'earlier'} than in legs.csv")
        if leg.flight in plan.schedule.skips:
            price = f"{plan.schedule.skips[leg.flight]:,}"
            found.append(f"left out at {price}" if flown.fleet == NO_FLEET else f"may be left out at {price}")
        change = plan.change_of(leg.flight)
        if change and plan.comparison and change.is_refleeted:
            found.append(f"{named(change.fleets[0])} in {plan.comparison.name}")
        if change and plan.comparison and change.is_moved:
            found.append(f"departs {plan.calendar.clock(change.departs[0])} in {plan.comparison.name}")
        return found


def named(fleet: str) -> str:
    """Returns the name of what flies a leg."""
    return "left out" if fleet == NO_FLEET else fleet


def legs_of(plan: Plan, teller: Teller) -> List[Leg]:
    """Returns the flights of the chart, by fleet, aircraft and time, and gives each its number."""
    found: List[Tuple[Leg, List[Optional[Tuple[str, str]]]]] = []
    for fleet in plan.fleets:
        pairs = {it: after for it, after in fleet.ties}, {after: it for it, after in fleet.ties}
        for row in fleet.rows:
            for flown, before, after in row.window.departing():
                leg = leg_of(teller, flown, after, row)
                follows = [plan.calendar.key(it.departs + row.start) if it else "" for it in (before, after)]
                neighbours = [(it.leg.flight, key) if it else None for it, key in zip((before, after), follows)]
                ties = (pairs[0].get(leg.flight), pairs[1].get(leg.flight))
                leg.notes += [f"through flight with {it}" for it in ties if it]
                teller.numbers[leg.flight, leg.key] = len(found)
                found.append((leg, neighbours))
    for leg, (one, other) in found:
        leg.before = teller.numbers.get(one, -1) if one else -1
        leg.after = teller.numbers.get(other, -1) if other else -1
    return [leg for leg, _ in found]


def legs_out(teller: Teller, rows: List[Row], first: int) -> List[Leg]:
    """Returns the flights that are left out, with numbers from a first one on."""
    found = [leg_of(teller, flown, None, row) for row in rows for flown, _, _ in row.window.departing()]
    teller.numbers.update({(it.flight, it.key): number for number, it in enumerate(found, first)})
    return found


def leg_of(teller: Teller, flown: Departure, after: Optional[Departure], row: Row) -> Leg:
    """Returns a flight in words."""
    plan, leg = teller.plan, flown.leg
    calendar, cost, at = plan.calendar, plan.schedule.cost, flown.departs + row.start
    may = [*plan.schedule.fleets_of[leg.flight], *([NO_FLEET] if leg.flight in plan.schedule.skips else [])]
    others = [(named(it), cost[leg.flight, it]) for it in may if it != flown.fleet]
    nights = nights_of(plan, flown, after) if flown.fleet != NO_FLEET else ""
    return Leg(
        flight=leg.flight,
        fleet=named(flown.fleet),
        aircraft=row.name if flown.fleet != NO_FLEET else "left out",
        day=calendar.day(at),
        start=leg.start,
        dep=calendar.clock(at),
        end=leg.end,
        arr=clock_after(calendar, flown.lands, flown.departs),
        ready=clock_after(calendar, flown.ready, flown.departs),
        nights=nights,
        wait=None if nights or after is None else after.departs - flown.ready,
        cost=cost[leg.flight, flown.fleet],
        others=sorted(others, key=lambda it: it[1]),
        notes=teller.notes(flown),
        key=calendar.key(at),
        following=after.leg.flight if after else "",
    )


def clock_after(calendar: Calendar, minute: int, departs: int) -> str:
    """Returns the clock time of a minute, with the days that begin, in UTC, after a departure."""
    days = (minute + calendar.day_start) // DAY - (departs + calendar.day_start) // DAY
    return calendar.clock(minute) + (f" +{days}" if days else "")


def nights_of(plan: Plan, flown: Departure, after: Optional[Departure]) -> str:
    """Returns the nights after a flight in words, up to the next one or the end of the chart."""
    last = after.departs if after else max(flown.ready, plan.days * DAY)
    aloft, parked = flown.ready // DAY - flown.departs // DAY, last // DAY - flown.ready // DAY
    told = [f"{nights_in_words(aloft)} aloft or in its turn"] if aloft else []
    if parked:
        ground = Ground(flown.leg.end, flown.ready, last, flown, after)
        short = f", short: {ground.stay} min" if ground.is_short(plan.least_night) else ", maintenance"
        told.append(f"{nights_in_words(parked)} at {flown.leg.end}{short if plan.schedule.maintains[flown.leg.end] else ''}")
    return "; ".join(told)


def nights_in_words(nights: int) -> str:
    """Returns a number of nights in words."""
    return "night" if nights == 1 else f"{nights} nights"
