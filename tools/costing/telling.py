"""What is told of figures, of the pairs that they give, and of a plan by them."""

from fractions import Fraction
from typing import Collection, Iterator, List, Mapping, Optional, Sequence, Tuple

from costing.amounts import halves_up
from costing.choosing import Costs
from costing.figures import FULL, Demand
from costing.legs import EACH, unknown
from costing.making import thousandths
from costing.spilling import THOUSAND
from fleetplan.tables import NO_FLEET
from fleetplan.texts import counted, some

# A flight, and the minutes by which it may depart later.
Shift = Tuple[str, int]


class Sums:
    """What a plan costs by figures: each part summed exactly, and how many passengers find a seat and don't. Legs that a fleet flies that may
    not are no part of it."""

    def __init__(self, costs: Costs, plan: Mapping[str, str]) -> None:
        pairs = [costs.pairs[it] for it in plan.items() if it in costs.pairs]
        self.unit = costs.pricer.unit
        self.operating = sum(it.operating for it in pairs)
        self.spill = sum(it.parts[-1] for it in pairs)
        self.cost = sum(it.cost for it in pairs)
        self.spilled = sum(it.spilled for it in pairs)
        self.wanted = sum((costs.pricer.demands.of[it.leg.flight].mean for it in pairs), Fraction(0))
        self.seats = sum((costs.figures.types[it.fleet].seats for it in pairs), Fraction(0))
        self.forbidden = [f"{flight} by {fleet}" for flight, fleet in plan.items() if fleet != NO_FLEET and (flight, fleet) not in costs.pairs]
        self.left_out = sum(it == NO_FLEET for it in plan.values())

    @property
    def load(self) -> Optional[Fraction]:
        """The passengers who find a seat, over the seats; None where there is no seat."""
        return (self.wanted - Fraction(self.spilled, THOUSAND)) / self.seats if self.seats else None

    def whole(self, count: int) -> int:
        """Returns a count of the pricer's unit in whole units of currency."""
        return halves_up(count, self.unit)


def of_pairs(costs: Costs) -> Iterator[str]:
    """Tells how many pairs there are, and why others aren't."""
    legs, fleets = len(costs.legs), len(costs.fleets)
    yield f"{counted(legs, 'leg')}, {counted(fleets, 'fleet')}: {counted(len(costs.pairs), 'pair')} may be flown"
    if costs.refusals:
        pairs = [f"{flight} by {fleet} ({why})" for (flight, fleet), why in costs.refusals.items()]
        yield f"{counted(len(pairs), 'pair')} may not: {some(pairs)}"


def of_figures(costs: Costs) -> Iterator[str]:
    """Tells what is odd about figures: a great spread, full loads, and names that stand for nothing here."""
    figures = costs.figures
    used = {id(it): it for it in costs.pricer.demands.of.values()}
    demands = {key: it for key, it in figures.demand.items() if id(it) in used}
    wide = _named(demands, [key for key, it in demands.items() if 2 * it.sd > it.mean])
    if wide:
        yield f"{figures.paths.demand}: sd is above half of mean, so a part of the law is below 0, of {some(wide)}"
    full = _named(demands, [key for key, it in demands.items() if it.load is not None and it.load > FULL])
    if full:
        yield f"{figures.paths.demand}: carried is above 0.95 of seats, where a little more tells of many more who wanted one, of {some(full)}"
    yield from _of_names(costs)


def _named(demands: Mapping[str, Demand], keys: Sequence[str]) -> List[str]:
    """Returns flights with their records."""
    return [f"{key} (record {demands[key].place.number})" for key in keys]


def _of_names(costs: Costs) -> Iterator[str]:
    """Tells the names of figures that stand for nothing here."""
    figures, paths = costs.figures, costs.figures.paths
    stations = {code for it in costs.legs for code in (it.start, it.end)}
    fleets = set(costs.fleets)
    closed = {it.station for own in figures.types.values() for it in own.closed}
    told: List[Tuple[Optional[str], str, List[str]]] = [
        (paths.demand, "flight", unknown(figures.demand, costs.legs)),
        (paths.types, "fleet", sorted(set(figures.types) - fleets)),
        (paths.types, "closed station", sorted(closed - stations)),
        (paths.fuel, "station", sorted(set(figures.fuel) - stations - {EACH})),
        (paths.fees, "station", sorted({station for station, _ in figures.fees} - stations)),
        (paths.fees, "fleet", sorted({fleet for _, fleet in figures.fees} - fleets)),
    ]
    for path, what, names in told:
        if names:
            yield f"{path}: {counted(len(names), what)} not among these legs and fleets: {some(names)}"


def of_shifts(costs: Costs, shifts: Sequence[Shift], table: str) -> Iterator[str]:
    """Tells of shifts that take a leg into hours that are closed to a fleet that may fly it."""
    legs = {it.flight: it for it in costs.legs}
    found = []
    for flight, shift in shifts:
        for fleet in costs.fleets if flight in legs else ():
            why = costs.figures.types[fleet].curfew(legs[flight], shift) if (flight, fleet) in costs.pairs else None
            if why:
                found.append(f"{flight} by {shift:+} with {fleet} ({why})")
    if found:
        yield f"{counted(len(found), 'shift')} of {table} may take a fleet into closed hours, which tables can't forbid: {some(found)}"


def of_plan(costs: Costs, plan: Mapping[str, str], table: str) -> Iterator[str]:
    """Tells what a plan costs by figures, to hold against what was spent and counted."""
    sums = Sums(costs, plan)
    load = "none" if sums.load is None else f"{float(sums.load):.3f}"
    money = f"operating cost {sums.whole(sums.operating):,}, spill cost {sums.whole(sums.spill):,}, in sum {sums.cost:,}"
    out = f"; {counted(sums.left_out, 'leg')} left out" if sums.left_out else ""
    yield f"{table}: {money}; {thousandths(sums.spilled)} passengers spilled, load factor {load}{out}"
    if sums.forbidden:
        yield f"{table}: {counted(len(sums.forbidden), 'leg')} with a fleet that may not fly it, and without figures: {some(sums.forbidden)}"


def of_skips(costs: Costs, skips: Mapping[str, int], names: Collection[str], path: str) -> Iterator[str]:
    """Tells how many legs may be left out, and which names stand for none."""
    yield f"optional.csv has {counted(len(skips), 'record')}, for calls with --optional"
    lacking = unknown({it: it for it in names}, costs.legs)
    if lacking:
        yield f"{path}: {counted(len(lacking), 'flight')} not among these legs and fleets: {some(lacking)}"
