"""Makes tables of round trips that one fleet can fly, with a proof that trims the pairs of all other fleets.

The first fleet has an aircraft for each round trip, the others have none. Each pair of another fleet is set aside by
a trim, whose `yes` child is refuted by prices: a rent of 1, and at all stations a price of 1 up to the leg's departure
and of 0 after it. What is left is one assignment, that of the first fleet. No turn passes the day start.
"""

from pathlib import Path
from typing import Callable, Iterable, Iterator, Optional, Sequence, Tuple

from shared import Place, put

from fleetplan.times import DAY, clock

TURN = 30
BLOCK = 60
# A flight, from, departure, to.
Leg = Tuple[str, int, int, int]


def code(station: int) -> str:
    """The code of a station."""
    return "S" + chr(65 + station // 26) + chr(65 + station % 26)


def legs_of(trips: int, stations: int) -> Iterator[Leg]:
    """Two legs a round trip: flight, from, departure, to."""
    for trip in range(trips):
        out = 300 + 7 * trip % 400
        home = 2 * trip % stations
        away = (home + 1) % stations
        yield f"A{trip}", home, out, away
        yield f"B{trip}", away, out + 200, home


def cost_of(leg: int, fleet: int) -> int:
    """What a leg costs with a fleet."""
    return 1000 + (leg * 37 + fleet * 101) % 500


def refuted(fleet: int, departure: int, stations: int) -> Iterator[str]:
    """The lines of prices that refute a pair."""
    yield "refuted"
    yield "scale 1"
    yield f"rent F{fleet + 1} 1"
    for station in range(stations):
        yield f"at F{fleet + 1} {code(station)} 0 1"
        yield f"at F{fleet + 1} {code(station)} {departure + 1} 0"


def proof_of(legs: Sequence[Leg], fleets: int, stations: int) -> Iterator[str]:
    """The lines of the proof that trims all pairs but those of the first fleet."""
    yield "fleet proof 2"
    yield "plan yes"
    for flight, _, departure, _ in legs:
        for fleet in range(1, fleets):
            yield f"trim {flight} F{fleet + 1}"
            yield from refuted(fleet, departure, stations)
    yield "sole"
    yield "end"


def stepped(fleets: int, stations: int) -> Iterator[str]:
    """A proof of one open leaf, whose prices fall by 1 at each minute, of each fleet at each station."""
    yield "fleet proof 2"
    yield "plan yes"
    yield "open pivots 0"
    yield "scale 1"
    yield from (f"rent F{fleet + 1} {DAY - 1}" for fleet in range(fleets))
    for fleet in range(fleets):
        for station in range(stations):
            yield from (f"at F{fleet + 1} {code(station)} {minute} {DAY - 1 - minute}" for minute in range(DAY))
    yield "end"


def write(
    folder: Place,
    trips: int,
    fleets: int,
    stations: int,
    proof: Optional[Iterable[str]] = None,
    cost: Callable[[int, int], int] = cost_of,
) -> Tuple[int, int]:
    """Writes tables, plan and proof, and answers the nodes of the tree and the plan's cost.

    The proof is the one of trims, or the lines that are given. A pair costs what `cost` says of its leg and its fleet."""
    legs = list(legs_of(trips, stations))
    put(folder, {
        "stations.csv": [(code(it), 0, "yes") for it in range(stations)],
        "fleets.csv": [(f"F{it + 1}", 0 if it else trips, TURN) for it in range(fleets)],
        "legs.csv": [(flight, code(a), clock(departs), code(b), clock(departs + BLOCK)) for flight, a, departs, b in legs],
        "costs.csv": [(leg[0], f"F{it + 1}", cost(at, it)) for at, leg in enumerate(legs) for it in range(fleets)],
        "throughs.csv": [],
        "plan.csv": [(leg[0], "F1") for leg in legs],
    })  # fmt: skip
    with open(Path(folder, "proof.txt"), "w", encoding="ascii") as file:
        file.writelines(line + "\n" for line in proof or proof_of(legs, fleets, stations))
    return 2 * len(legs) * (fleets - 1) + 1, sum(cost(at, 0) for at in range(len(legs)))
