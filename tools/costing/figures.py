"""The files of figures, read and judged: the demand of flights, the types of fleets, the price of fuel, the fees of landings."""

from __future__ import annotations

import os
from fractions import Fraction
from typing import Dict, List, Mapping, NamedTuple, Optional, Sequence, Tuple

from costing.amounts import amount
from costing.legs import EACH, Place, flight_or_each
from costing.spilling import MOST_FACTOR, mean_of, most_carried
from costing.types import TYPES, Type, closings, longest, type_of
from fleetplan.forms import code, name
from fleetplan.judged import judged
from fleetplan.tables import Header

# Passengers who want a seat, and passengers who had one.
WANTED = ("flight", "mean", "sd", "fare", "recapture")
CARRIED = ("flight", "carried", "seats", "k", "fare", "recapture")
FUEL = ("station", "price")
FEES = ("station", "fleet", "fee")
FLIGHTS = ("flight",)
# The names of the files in a folder.
NAMES = ("demand.csv", "types.csv", "fuel.csv", "fees.csv")
HUNDRED = 100
# Of so many of its seats that were taken what is wanted can't be told well.
FULL = Fraction(95, 100)
_NUMBER, _PARTS = amount(), amount(HUNDRED)


class Demand(NamedTuple):
    """The passengers who want one departure of a flight, seats or not: their mean and spread; the money that is lost with one who is turned
    away, and how many of 100 such the airline keeps. `load` is the part of the seats that was taken, where that is what is known."""

    mean: Fraction
    sd: Fraction
    fare: Fraction
    recapture: Fraction
    place: Place
    load: Optional[Fraction] = None

    @property
    def worth(self) -> Fraction:
        """What one passenger who finds no seat costs."""
        return self.fare * (HUNDRED - self.recapture) / HUNDRED

    def scaled(self, factor: Fraction) -> Demand:
        """Returns the demand times a factor: mean and spread."""
        return self if factor == 1 else self._replace(mean=self.mean * factor, sd=self.sd * factor)


class Paths(NamedTuple):
    """The files of figures: each a path, or None where a file isn't given."""

    demand: str
    types: str
    fuel: Optional[str]
    fees: Optional[str]


class Figures(NamedTuple):
    """A planner's own figures: by flight (or what stands for it), by fleet, by station, and by station and fleet."""

    paths: Paths
    demand: Dict[str, Demand]
    types: Dict[str, Type]
    fuel: Dict[str, Fraction]
    fees: Dict[Tuple[str, str], Fraction]

    @classmethod
    def read(cls, paths: Paths) -> Figures:
        """Returns the figures of files, or raises Unread. A file that isn't given has no record."""
        return cls(
            paths,
            read_demand(paths.demand),
            read_types(paths.types),
            read_fuel(paths.fuel) if paths.fuel is not None else {},
            read_fees(paths.fees) if paths.fees is not None else {},
        )

    @classmethod
    def of_folder(cls, folder: str) -> Figures:
        """Returns the figures of a folder, or raises Unread. fuel.csv and fees.csv may be missing."""
        demand, types, fuel, fees = (os.path.join(folder, it) for it in NAMES)
        fuel_or_none, fees_or_none = (it if os.path.lexists(it) else None for it in (fuel, fees))
        return cls.read(Paths(demand, types, fuel_or_none, fees_or_none))

    def price(self, station: str) -> Optional[Fraction]:
        """Returns what a tonne of fuel costs at a departure from a station, or None where no record tells it."""
        return self.fuel.get(station, self.fuel.get(EACH))

    def with_fuel(self, factor: Fraction) -> Figures:
        """Returns the figures with each price of fuel times a factor."""
        return self._replace(fuel={station: price * factor for station, price in self.fuel.items()})


def read_demand(path: str) -> Dict[str, Demand]:
    """Returns the demand of each flight of a demand.csv, or raises Unread."""
    forms = {WANTED: (flight_or_each, _NUMBER, _NUMBER, _NUMBER, _PARTS), CARRIED: (flight_or_each, _NUMBER, _NUMBER, _NUMBER, _NUMBER, _PARTS)}
    header, rows = judged(path, forms)
    read = wanted if header == WANTED else taken
    return {row[0]: read([Fraction(it) for it in row[1:]], Place(path, number)) for number, row in enumerate(rows, 2)}


def wanted(numbers: Sequence[Fraction], place: Place) -> Demand:
    """Returns the demand of a record that tells it, or raises Unread."""
    mean, sd, fare, recapture = numbers
    if sd > mean:
        raise place.fault("sd is above mean, and no normal law with such a spread tells passengers", "sd")
    return Demand(mean, sd, fare, recapture, place)


def taken(numbers: Sequence[Fraction], place: Place) -> Demand:
    """Returns the demand of a record that tells how many were carried, or raises Unread."""
    has, seats, factor, fare, recapture = numbers
    if factor > MOST_FACTOR:
        raise place.fault("k is above 0.5, where what is carried doesn't tell what is wanted", "k")
    if has >= seats:
        raise place.fault("carried isn't below seats, so nothing tells how many more wanted one", "carried")
    mean = mean_of(has, factor, seats)
    if mean is None:
        most = float(most_carried(factor, seats))
        raise place.fault(f"carried is told by no mean up to twice the seats, with which {most:.3f} are carried by this k", "carried")
    return Demand(mean, factor * mean, fare, recapture, place, has / seats)


def read_types(path: str) -> Dict[str, Type]:
    """Returns the fleets of a types.csv, or raises Unread."""
    _, rows = judged(path, {TYPES: (name, _NUMBER, _NUMBER, _NUMBER, _NUMBER, longest, closings)})
    return {row[0]: type_of(row, Place(path, number)) for number, row in enumerate(rows, 2)}


def read_fuel(path: str) -> Dict[str, Fraction]:
    """Returns what a tonne of fuel costs at stations by a fuel.csv, or raises Unread."""
    _, rows = judged(path, {FUEL: (station_or_each, _NUMBER)})
    return {station: Fraction(price) for station, price in rows}


def read_fees(path: str) -> Dict[Tuple[str, str], Fraction]:
    """Returns what a landing of a fleet costs at stations by a fees.csv, or raises Unread."""
    _, rows = judged(path, {FEES: (code, name, _NUMBER)}, lambda row: tuple(row[:2]))
    return {(station, fleet): Fraction(fee) for station, fleet, fee in rows}


def read_flights(path: str) -> Dict[str, Place]:
    """Returns the flights of a file, or what stands for them, with their places; or raises Unread."""
    _, rows = judged(path, {FLIGHTS: (flight_or_each,)})
    return {row[0]: Place(path, number) for number, row in enumerate(rows, 2)}


def station_or_each(text: str) -> Optional[str]:
    """Says what is wrong with a station, or with what stands for others, or returns None."""
    return None if text == EACH else code(text)


def headers() -> Mapping[str, List[Header]]:
    """Returns the headers of each file."""
    return dict(zip(NAMES, ([WANTED, CARRIED], [TYPES], [FUEL], [FEES])))
