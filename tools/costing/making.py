"""The files that tools/costs writes, and tools/ssim where it has figures."""

from typing import Collection, Dict, List, Mapping, Tuple

from costing.amounts import Writer, written
from costing.choosing import Costs
from costing.legs import key_of
from costing.pricing import PARTS, Priced
from costing.spilling import THOUSAND
from fleetplan.records import text_of
from fleetplan.tables import HEADERS

COSTS, PARTED, PAGE, OPTIONAL = "costs.csv", "costs-parts.csv", "costs.html", "optional.csv"
PARTED_HEADER = ("flight", "fleet", "mean", "sd", "seats", "spilled", *PARTS, "cost")


def thousandths(count: int) -> str:
    """Returns thousandths as a number with three decimals."""
    return f"{count // THOUSAND}.{count % THOUSAND:03}"


def costs_text(costs: Costs) -> str:
    """Returns the text of costs.csv."""
    return text_of(HEADERS[COSTS], [(flight, fleet, it.cost) for (flight, fleet), it in costs.pairs.items()])


def parted_text(costs: Costs) -> str:
    """Returns the text of costs-parts.csv."""
    demands = {flight: (written(it.mean), written(it.sd)) for flight, it in costs.pricer.demands.of.items()}
    seats = {fleet: written(costs.figures.types[fleet].seats) for fleet in costs.fleets}
    writer = Writer(costs.pricer.unit)
    return text_of(PARTED_HEADER, [_record(it, demands[it.leg.flight], seats[it.fleet], writer) for it in costs.pairs.values()])


def _record(pair: Priced, demand: Tuple[str, str], seats: str, writer: Writer) -> List[object]:
    """Returns the record of a pair."""
    return [pair.leg.flight, pair.fleet, *demand, seats, thousandths(pair.spilled), *map(writer.text, pair.parts), pair.cost]


def skipped(costs: Costs, flights: Collection[str]) -> Dict[str, int]:
    """Returns what it costs to leave each leg out that some names stand for."""
    return {it.flight: costs.pricer.skip(it) for it in costs.legs if key_of(it, flights) is not None}


def skips_text(skips: Mapping[str, int]) -> str:
    """Returns the text of optional.csv."""
    return text_of(HEADERS[OPTIONAL], skips.items())
