"""The pairs of a costs.csv, priced anew for more or less demand, or dearer fuel.

    from costing.repricing import Scaling, reprice

    scaling = Scaling()
    scaling.demand(Fraction("0.8"))              # `demand *0.8`: mean and spread of each leg
    scaling.demand(Fraction("1.1"), "FP1")       # `demand FP1 *1.1`: of a leg alone; in a week FP1 stands for FP1D1 to FP1D7 too
    scaling.fuel(Fraction("1.5"))                # `fuel *1.5`: each price of fuel.csv
    rows = reprice(folder, legs, costs, scaling)

`folder` has legs.csv, demand.csv, types.csv, fuel.csv and fees.csv (the last two may be missing, as for tools/costs). Its legs.csv tells
which names stand for a leg, so its days are the ones of the base. `legs` and `costs` are the records of legs.csv and costs.csv below their
headers, each a list of texts, with days or without, and may have been changed already: stations and blocks are those of `legs`. The records
that are returned have the pairs of `costs` in their order, and no others, each with its new cost. Whatever cost a pair had is lost, so a change
of costs belongs behind. Factors multiply, in any order. All is exact, and each cost rounded once.

It raises Unread, in one line with file, record and column, where a file of figures doesn't read, a pair's leg has no demand or its fleet no
type, fuel has no price, a cost would be above 10^12, or a flight of `scaling` is none of `legs`. optional.csv isn't priced anew:
`skips` does that for the legs that it is given."""

import os
from fractions import Fraction
from typing import Dict, Optional, Sequence

from costing.figures import Figures
from costing.legs import EACH, Leg, legs_in, read_legs
from costing.pricing import Pricer
from fleetplan.errors import Unread
from fleetplan.records import Rows


class Scaling:
    """By which factors demand and fuel are more or less than in the files."""

    def __init__(self) -> None:
        self.factors: Dict[str, Fraction] = {}
        self.of_fuel = Fraction(1)

    def demand(self, factor: Fraction, flight: Optional[str] = None) -> None:
        """Multiplies mean and spread of a flight, or of each."""
        name = EACH if flight is None else flight
        self.factors[name] = self.factors.get(name, Fraction(1)) * factor

    def fuel(self, factor: Fraction) -> None:
        """Multiplies each price of fuel."""
        self.of_fuel *= factor


def reprice(folder: str, legs: Sequence[Sequence[str]], costs: Sequence[Sequence[str]], scaling: Scaling) -> Rows:
    """Returns the records of a costs.csv with the costs that its pairs have by the figures of a folder and these factors, or raises Unread."""
    path, figures, known = os.path.join(folder, "costs.csv"), _figures(folder, scaling), _known(folder, legs, scaling)
    for number, (flight, fleet, *_) in enumerate(costs, 2):
        if flight not in known:
            raise Unread.at(path, number, f"{flight} is no flight of legs.csv", "flight")
        if fleet not in figures.types:
            raise Unread.at(path, number, f"{fleet} has no type by {figures.paths.types}", "fleet")
    pricer = Pricer(figures, list(known.values()), sorted({it[1] for it in costs}), scaling.factors)
    return [[flight, fleet, str(pricer.price(known[flight], fleet).cost)] for flight, fleet, *_ in costs]


def skips(folder: str, legs: Sequence[Sequence[str]], flights: Sequence[str], scaling: Scaling) -> Rows:
    """Returns records of an optional.csv: what it costs by the same not to fly these flights of `legs`, or raises Unread."""
    known = _known(folder, legs, scaling)
    for number, flight in enumerate(flights, 2):
        if flight not in known:
            raise Unread.at(os.path.join(folder, "optional.csv"), number, f"{flight} is no flight of legs.csv", "flight")
    pricer = Pricer(_figures(folder, scaling), list(known.values()), [], scaling.factors)
    return [[it, str(pricer.skip(known[it]))] for it in flights]


def _figures(folder: str, scaling: Scaling) -> Figures:
    """Returns the figures of a folder, with the fuel that is asked for."""
    return Figures.of_folder(folder).with_fuel(scaling.of_fuel)


def _known(folder: str, legs: Sequence[Sequence[str]], scaling: Scaling) -> Dict[str, Leg]:
    """Returns the legs of records by their flights, or raises Unread where a flight of the factors is none of them."""
    plain = {it.flight: it.keys[1] for it in read_legs(folder) if len(it.keys) > 2}
    found = {it.flight: it for it in legs_in(legs, os.path.join(folder, "legs.csv"), plain)}
    names = {key for it in found.values() for key in it.keys}
    for it in scaling.factors:
        if it not in names and it != EACH:
            raise Unread(f"legs.csv has no flight {it}, whose demand is to change")
    return found
