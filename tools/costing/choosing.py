"""Which pairs of legs and fleets there are, each with its cost, and why others aren't."""

from typing import Callable, Collection, Dict, List, Mapping, Optional, Sequence, Tuple

from costing.figures import Figures
from costing.legs import Leg, Place
from costing.pricing import Priced, Pricer
from fleetplan.texts import some

# A flight and a fleet.
Pair = Tuple[str, str]


class Costs:
    """The pairs of legs and fleets by figures: `pairs` has those that may be, in the order of legs and then of fleets, and `refusals` why each
    other may not."""

    def __init__(self, figures: Figures, legs: Sequence[Leg], fleets: Mapping[str, Place]) -> None:
        self.figures, self.legs, self.fleets = figures, legs, list(fleets)
        for fleet, place in fleets.items():
            if fleet not in figures.types:
                raise place.fault(f"{fleet} has no type by {figures.paths.types}", "fleet")
        self.pricer = Pricer(figures, legs, self.fleets)
        self.pairs: Dict[Pair, Priced] = {}
        self.refusals: Dict[Pair, str] = {}
        for leg in legs:
            self.pricer.demands.of_leg(leg)
            for fleet in self.fleets:
                why = figures.types[fleet].refusal(leg)
                if why:
                    self.refusals[leg.flight, fleet] = why
                else:
                    self.pairs[leg.flight, fleet] = self.pricer.price(leg, fleet)

    def bare(self) -> List[Leg]:
        """Returns the legs that no fleet may fly."""
        flown = {flight for flight, _ in self.pairs}
        return [it for it in self.legs if it.flight not in flown]

    def want_pairs(self, optional: Callable[[], Collection[str]]) -> None:
        """Raises Unread where no fleet may fly a leg that isn't optional. Which ones are is asked only where there is such a leg."""
        bare = self.bare()
        flights = optional() if bare else ()
        for it in bare:
            if it.flight not in flights:
                why = some([f"{fleet}: {self.refusals[it.flight, fleet]}" for fleet in self.fleets]) or "there is no fleet"
                raise it.place.fault(f"{it.flight} may be flown by no fleet ({why}), and isn't optional", "flight")

    def least(self, leg: Leg) -> Optional[int]:
        """Returns the least cost of a leg, or None where no fleet may fly it."""
        return min((self.pairs[leg.flight, it].cost for it in self.fleets if (leg.flight, it) in self.pairs), default=None)
