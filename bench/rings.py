"""Tables of round trips in rings: of each ring every trip overlaps with the next one alone, and the last with the first.

A ring has a hub and two fleets of its own with one aircraft each, which could fly an even ring by turns. Of an odd one a
dearer fleet, which serves all rings, flies a trip or more. The linear relaxation sees nothing of that: it flies each trip by
halves. So each ring wants splits of its own, and rings side by side want each with each. Costs are drawn from a number.
"""

import random
from shared import Place, put

from fleetplan.times import DAY, clock


def code(number: int) -> str:
    """The code of a station."""
    return "".join(chr(ord("A") + number // 26**place % 26) for place in (2, 1, 0))


def write(folder: Place, rings: int, trips: int, number: int) -> None:
    """Writes so many rings of so many round trips each, with the costs of a number. A day starts at 00:00."""
    draws = random.Random(number)
    stations, fleets, legs, costs = [], [("DEAR", rings * trips, 0)], [], []
    for ring in range(rings):
        hub = code(26 * ring)
        own = f"F{2 * ring + 1}", f"F{2 * ring + 2}"
        stations.append((hub, 0, "yes"))
        fleets += [(it, 1, 0) for it in own]
        for trip in range(trips):
            away = code(26 * ring + trip + 1)
            stations.append((away, 0, "yes"))
            leaves, returns = DAY * trip // trips, DAY * (trip + 2) // trips
            middle = (leaves + returns) // 2
            for letter, *way in (("A", hub, clock(leaves), away, clock(middle)), ("B", away, clock(middle), hub, clock(returns))):
                name = f"{letter}{ring:02}{trip:02}"
                legs.append((name, *way))
                costs.append((name, "DEAR", draws.randrange(50, 150)))
                costs += [(name, fleet, draws.randrange(10, 20)) for fleet in own]
    put(folder, {"stations.csv": stations, "fleets.csv": fleets, "legs.csv": legs, "costs.csv": costs, "throughs.csv": []})
