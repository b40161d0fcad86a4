"""The parts and the cost of a pair of a leg and a fleet: operating cost, and what is lost with passengers who find no seat.

Hane, C. A. and others (1995): The fleet assignment problem. Mathematical Programming 70. Subramanian, R. and others (1994): Coldstart,
fleet assignment at Delta Air Lines. Interfaces 24."""

import math
from fractions import Fraction
from typing import Dict, Iterable, List, Mapping, NamedTuple, Optional, Sequence, Tuple

from costing.amounts import halves_up, rounded
from costing.figures import Demand, Figures
from costing.legs import Leg, key_of
from costing.spilling import THOUSAND, Law
from costing.types import Type
from fleetplan.forms import TRILLION

# The kilograms of a tonne, and the minutes of an hour.
TONNE, HOUR = 1000, 60
# The parts of a cost, in the order in which they are told.
PARTS = ("departure", "minutes", "fuel", "fee", "spill")


class Priced(NamedTuple):
    """A pair with its cost, the thousandths of a passenger who find no seat, and the parts of the cost, each a count of the pricer's unit."""

    leg: Leg
    fleet: str
    cost: int
    spilled: int
    parts: Tuple[int, ...]

    @property
    def operating(self) -> int:
        """All parts but the last, as a count of the same."""
        return sum(self.parts[:-1])


class Demands:
    """The demand of each leg, where it is known, times the factors of a caller."""

    def __init__(self, figures: Figures, legs: Iterable[Leg], factors: Mapping[str, Fraction]) -> None:
        self.path = figures.paths.demand
        self.of: Dict[str, Demand] = {}
        for leg in legs:
            key = key_of(leg, figures.demand)
            if key is not None:
                self.of[leg.flight] = figures.demand[key].scaled(factor_of(leg, factors))

    def of_leg(self, leg: Leg) -> Demand:
        """Returns the demand of a leg, or raises Unread."""
        if leg.flight not in self.of:
            raise leg.place.fault(f"{leg.flight} has no demand by {self.path}", "flight")
        return self.of[leg.flight]


def factor_of(leg: Leg, factors: Mapping[str, Fraction]) -> Fraction:
    """Returns the product of the factors of all names that stand for a leg."""
    product = Fraction(1)
    for key in leg.keys:
        product *= factors.get(key, 1)
    return product


class Pricer:
    """Prices pairs of legs and fleets by figures."""

    def __init__(self, figures: Figures, legs: Sequence[Leg], fleets: Sequence[str], factors: Optional[Mapping[str, Fraction]] = None) -> None:
        self.figures = figures
        self.demands = Demands(figures, legs, factors or {})
        self.rates = rates_of(figures, {it.start for it in legs}, fleets)
        self.unit = self._unit(fleets)
        self.types = {it: self._counted(figures.types[it]) for it in fleets}
        self.minutes = {key: self._count(it) for key, it in self.rates.items()}
        self.fees = {key: self._count(it) for key, it in figures.fees.items() if key[1] in self.types}
        self.worths = {flight: self._count(it.worth / THOUSAND) for flight, it in self.demands.of.items()}
        self.laws = {flight: Law(it.mean, it.sd) for flight, it in self.demands.of.items()}
        self.known: Dict[Tuple[str, int, int], int] = {}

    def _unit(self, fleets: Sequence[str]) -> int:
        """Returns in how many parts a unit of currency is divided, so that each figure is a whole number of them."""
        types = [self.figures.types[it] for it in fleets]
        numbers: List[Fraction] = [*(it.departure for it in types), *(it.minute for it in types), *self.rates.values()]
        numbers += [*self.figures.fees.values(), *(it.worth / THOUSAND for it in self.demands.of.values())]
        unit = 1
        for it in {number.denominator for number in numbers}:
            unit = unit * it // math.gcd(unit, it)
        return unit

    def _count(self, number: Fraction) -> int:
        """Returns how many of these parts a number is."""
        return number.numerator * (self.unit // number.denominator)

    def _counted(self, own: Type) -> Tuple[int, int, int, int]:
        """Returns the seats of a fleet as a fraction's two numbers, and what a departure and a minute are."""
        return own.seats.numerator, own.seats.denominator, self._count(own.departure), self._count(own.minute)

    def spilled(self, leg: Leg, seats: int, of: int) -> int:
        """Returns how many passengers of a leg find no seat among so many, in thousandths; or raises Unread."""
        key = (leg.flight, seats, of)
        if key not in self.known:
            self.demands.of_leg(leg)
            self.known[key] = self.laws[leg.flight].spilled(seats, of)
        return self.known[key]

    def price(self, leg: Leg, fleet: str) -> Priced:
        """Returns a pair with its cost and parts, or raises Unread where demand or a price of fuel is missing, or the cost is too high."""
        *seats, departure, minute = self.types[fleet]
        turned_away = self.spilled(leg, *seats)
        rate = self.minutes.get((leg.start, fleet))
        if rate is None:
            raise leg.place.fault(f"{self.figures.paths.fuel or 'no file'} has no price of fuel at {leg.start}, and {fleet} burns it", "from")
        fee = self.fees.get((leg.end, fleet), 0)
        parts = (departure, minute * leg.block, rate * leg.block, fee, self.worths[leg.flight] * turned_away)
        cost = halves_up(sum(parts), self.unit)
        if cost > TRILLION:
            raise leg.place.fault(f"{leg.flight} costs {cost} with {fleet}, and a cost is {TRILLION} at most")
        return Priced(leg, fleet, cost, turned_away, parts)

    def skip(self, leg: Leg) -> int:
        """Returns what it costs not to fly a leg: the spill without a seat; or raises Unread."""
        demand = self.demands.of_leg(leg)
        cost = rounded(demand.worth * demand.mean)
        if cost > TRILLION:
            raise leg.place.fault(f"{leg.flight} costs {cost} left out, and that is {TRILLION} at most")
        return cost


def rates_of(figures: Figures, stations: Iterable[str], fleets: Sequence[str]) -> Dict[Tuple[str, str], Fraction]:
    """Returns what a minute's fuel of each fleet costs at each station, where that is known."""
    found = {}
    for station in stations:
        price = figures.price(station)
        for fleet in fleets:
            fuel = figures.types[fleet].fuel
            if price is not None or not fuel:
                found[station, fleet] = fuel * (price or 0) / (TONNE * HOUR)
    return found
