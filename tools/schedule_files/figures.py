"""Costs by a planner's own figures, in the place of prices: as tools/costs makes them."""

from typing import Collection, Dict, Iterator, List, Mapping, NamedTuple, Optional, Sequence, Tuple

from costing import legs, making, telling
from costing.choosing import Costs
from costing.figures import Figures, Paths, read_flights
from costing.legs import Place
from fleetplan.tables import ASKED
from schedule_files.choosing import keys_of
from schedule_files.reading import Schedule
from schedule_files.selecting import Flown

# The options that name files of figures.
FIGURES = ("demand", "types", "fuel", "fees", "skips")


class Figured(NamedTuple):
    """The files of figures that a call names, and that of the legs that may be left out, or None."""

    paths: Paths
    skips: Optional[str]


class Priced:
    """The pairs of legs and fleets by files of figures. The fleets are those of a file of the caller's, or else the types as filed."""

    def __init__(self, figured: Figured, schedule: Schedule, flown: Sequence[Flown], fleets: Sequence[str], path: Optional[str]) -> None:
        self.figured = figured
        own = [leg_of(schedule, it) for it in flown]
        lines: Dict[str, Place] = {}
        for it, leg in zip(flown, own):
            lines.setdefault(it.fleet, leg.place)
        places = {fleet: lines[fleet] if path is None else Place(path, number) for number, fleet in enumerate(fleets, 2)}
        self.costs = Costs(Figures.read(figured.paths), own, places)
        self.names = None if figured.skips is None else read_flights(figured.skips)
        self.skips: Optional[Mapping[str, int]] = None if self.names is None else making.skipped(self.costs, self.names)

    @property
    def records(self) -> List[Tuple[str, str, int]]:
        """The records of costs.csv."""
        return [(flight, fleet, it.cost) for (flight, fleet), it in self.costs.pairs.items()]

    def want_pairs(self, optional: Collection[str]) -> None:
        """Refuses a leg that no fleet may fly and that may not be left out: by the skips, or else by these flights."""
        self.costs.want_pairs(lambda: optional if self.skips is None else self.skips)

    def texts(self) -> Dict[str, str]:
        """Returns the texts of the further files that are made of figures."""
        skips = {} if self.skips is None else {making.OPTIONAL: making.skips_text(self.skips)}
        return {making.PARTED: making.parted_text(self.costs), **skips}

    def told(self, shifts: Sequence[telling.Shift], plan: Mapping[str, str]) -> Iterator[str]:
        """Tells what is odd about figures, and what the plan as filed costs by them."""
        yield from telling.of_pairs(self.costs)
        yield from telling.of_figures(self.costs)
        if self.skips is not None and self.names is not None:
            yield from telling.of_skips(self.costs, self.skips, self.names, str(self.figured.skips))
        yield from telling.of_shifts(self.costs, shifts, ASKED["windows"])
        yield from telling.of_plan(self.costs, plan, "the plan as filed")


def leg_of(schedule: Schedule, flown: Flown) -> legs.Leg:
    """Returns a leg as it is priced."""
    place = Place(schedule.path, flown.leg.number, "line")
    return legs.Leg(flown.name, keys_of(flown), flown.leg.origin, flown.minute, flown.leg.destination, flown.block, place)
