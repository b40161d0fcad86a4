"""The figures that a planner asks for, by fleet and in sum."""

from dataclasses import dataclass
from typing import List, Optional

from drawing.asking import Asker
from drawing.plans import Fleet, Plan
from fleetplan.tables import NO_FLEET


@dataclass(frozen=True)
class Worth:
    """What one aircraft less of a fleet costs at least, and what one more saves at most: a number, `infeasible`, or None where the proof
    says nothing of it."""

    less: Optional[str]
    more: Optional[str]


@dataclass(frozen=True)
class Figures:
    """The figures of a fleet, or of all: block minutes and cost are of a period, waits in minutes beyond the needed turns."""

    fleet: Optional[Fleet]
    used: int
    has: int
    legs: int
    block: int
    period: int
    waits: List[int]
    cost: int
    nights: int
    maintained: int
    worth: Optional[Worth] = None

    @property
    def hours(self) -> float:
        """Block hours a day."""
        return self.block / 60 / self.period

    @property
    def each(self) -> Optional[float]:
        """Block hours a day of an aircraft."""
        return self.hours / self.used if self.used else None

    @property
    def least(self) -> Optional[int]:
        """The least wait."""
        return min(self.waits) if self.waits else None

    @property
    def mean(self) -> Optional[float]:
        """The mean wait."""
        return sum(self.waits) / len(self.waits) if self.waits else None


def figures_of(plan: Plan) -> List[Figures]:
    """Returns the figures of each fleet that flies."""
    found = []
    for it in plan.fleets:
        legs = [plan.schedule.legs[flight] for flight in plan.flown_by(it.name)]
        block = sum(leg.block for leg in legs)
        cost = sum(plan.schedule.cost[leg.flight, it.name] for leg in legs)
        stays = it.nights()
        maintained = sum(ground is not None and plan.is_maintained(ground) for ground in stays)
        worth = worth_of(plan, it, plan.asker) if plan.wanted.has_sizes and plan.proof else None
        found.append(Figures(it, it.used, it.has, len(legs), block, plan.wanted.period, it.waits(), cost, len(stays), maintained, worth))
    return found


def total_of(figures: List[Figures], plan: Plan) -> Figures:
    """Returns the sums over all fleets. Aircraft of fleets that don't fly count as aircraft that there are."""
    return Figures(
        None,
        sum(it.used for it in figures),
        sum(plan.schedule.aircraft.values()),
        sum(it.legs for it in figures),
        sum(it.block for it in figures),
        plan.wanted.period,
        [wait for it in figures for wait in it.waits],
        sum(it.cost for it in figures),
        sum(it.nights for it in figures),
        sum(it.maintained for it in figures),
    )


def left_out_cost(plan: Plan) -> int:
    """Returns what the legs cost that are left out."""
    return sum(plan.schedule.cost[flight, NO_FLEET] for flight in plan.left_out)


def worth_of(plan: Plan, fleet: Fleet, asker: Asker) -> Worth:
    """Returns what one aircraft less and more of a fleet is worth, by the proof."""
    less = asker.bound_with(fleet.name, fleet.has - 1) if fleet.has else None
    more = asker.bound_with(fleet.name, fleet.has + 1) if fleet.has < 500 else None
    return Worth(by_how_much(less, plan.cost, 1), by_how_much(more, plan.cost, -1))


def by_how_much(bound: Optional[str], cost: int, sign: int) -> Optional[str]:
    """Returns by how much a bound is above the cost (sign 1) or below it (-1), and no less than 0; `infeasible` as it is."""
    if bound is None or bound == "infeasible":
        return bound
    return f"{max(0, sign * (int(bound) - cost)):,}"
