"""Changes of a planner's own figures, by which the costs of all pairs are priced anew: demand and fuel."""

import hashlib
from fractions import Fraction
from statistics import NormalDist
from typing import Callable, Dict, List, Optional

from costing.figures import NAMES
from costing.legs import Leg, read_legs
from costing.repricing import reprice
from fleetplan.errors import Unread
from fleetplan.records import table_of
from fleetplan.tables import DATED, headers_of
from steps.changing import FACTOR, NAME, Change, Tables, by_part

# The changes that price pairs, and those whose costs they would undo.
PRICING, UNDONE = ("demand", "fuel"), "cost"
# The files that they read, the first two always; and how tools/ssim has named the flights, where it has.
FILES = (*NAMES, "names.csv")
NEEDED = NAMES[:2]
# The greatest spread of a level, as that of a demand may be.
MOST_SPREAD = Fraction(1, 2)
# The words of a change of demand.
DEMAND = rf"(?:{NAME} )?{FACTOR}|(market|day) (0|0?\.[0-9]{{1,6}}) seed ([0-9]{{1,9}})"
# Levels have so many decimals.
PLACES = 3


def demand(flight: Optional[str], by: Optional[str], kind: str, spread: str, seed: str) -> Optional[Change]:
    """More or less demand, mean and spread: of all flights or one by a factor, or else a level of each market or day that is drawn from a seed."""
    if by:
        factor = Fraction(by)
        told = f"demand {f'of {flight} ' if flight else ''}is {by_part(factor)}"
        return Change(lambda tables: scaled(tables, lambda leg: factor, flight), told)

    def change(tables: Tables) -> None:
        of = days_in(tables.folder) if kind == "day" else {}
        names = (lambda leg: of.get(leg.flight, "1")) if kind == "day" else market
        scaled(tables, lambda leg: level(int(seed), kind, names(leg), Fraction(spread)), None)

    told = f"demand of each {kind} is drawn with spread {spread} from seed {int(seed)}"
    return Change(change, told) if Fraction(spread) <= MOST_SPREAD else None


def fuel(by: str) -> Change:
    """Each price of fuel times a factor."""
    factor = Fraction(by)

    def change(tables: Tables) -> None:
        tables.scaling.fuel(factor)
        price(tables)

    return Change(change, f"fuel costs {by_part(factor)}")


def scaled(tables: Tables, factor: Callable[[Leg], Fraction], flight: Optional[str]) -> None:
    """Multiplies the demand of the flights that a name stands for, or of all, by a factor of each, and prices all pairs anew."""
    standing = {it[0] for it in tables["legs.csv"]}
    legs: List[Leg] = [it for it in read_legs(tables.folder) if it.flight in standing and (flight is None or flight in it.keys)]
    if flight is not None and not legs:
        raise Unread(f"legs.csv has no {flight}")
    for it in legs:
        tables.scaling.demand(factor(it), it.flight)
    price(tables)


def price(tables: Tables) -> None:
    """Gives all pairs of a costs.csv the costs that they have by the figures, as far as these were changed. None is added."""
    standing = {it[0] for it in tables["legs.csv"]}
    # A flight that was dropped since has no demand to change.
    for it in [name for name in tables.scaling.factors if name not in standing]:
        del tables.scaling.factors[it]
    tables["costs.csv"][:] = reprice(tables.folder, tables["legs.csv"], tables["costs.csv"], tables.scaling)


def days_in(folder: str) -> Dict[str, str]:
    """Returns the day of each flight, before any change; of none where the tables tell no days."""
    header, rows = table_of(folder, "legs.csv", headers_of("legs.csv"))
    return {it[0]: it[1] for it in rows} if header == DATED else {}


def market(leg: Leg) -> str:
    """Returns the market of a leg: its two stations, whichever way it flies."""
    return " ".join(sorted((leg.start, leg.end)))


def level(seed: int, kind: str, name: str, spread: Fraction) -> Fraction:
    """Returns the level of a market or a day: 1 in the mean, of a normal law with this spread, not below 0, to a thousandth. It is drawn from
    the seed and the name alone, so it is the same whatever else is flown."""
    drawn = int.from_bytes(hashlib.sha256(f"{seed} {kind} {name}".encode("ascii")).digest()[:6], "big")
    share = (drawn + 0.5) / 2**48
    return max(Fraction(0), Fraction(round((1 + float(spread) * NormalDist().inv_cdf(share)) * 10**PLACES), 10**PLACES))
