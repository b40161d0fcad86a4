"""The page of the summary, by the template beside this folder: what each scenario made of its base, the costs, and what the proofs say of
other sizes of fleets."""

import os
from bisect import bisect
from functools import partial
from typing import Dict, List, NamedTuple, Optional, Sequence, Union

from drawing.templating import environment, signed, styles
from fleetplan.texts import shown
from steps.differences import Interval
from steps.rows import Row, asked_of, columns_of, compared_fleets
from steps.sums import Sum

OWN = os.path.join(os.path.dirname(os.path.dirname(os.path.realpath(__file__))), "templates")
# Pixels: the bars of costs, and those of differences, which stand in a table.
LONGEST, NARROW = 620, 180
# What stands in the place of a number that nobody knows.
UNKNOWN = "–"


class Bar(NamedTuple):
    """A bar from 0 to a number that is known, and on from there to the greatest that it may be: pixels, with the place of 0."""

    zero: float
    left: float
    width: float
    more_left: float
    more_width: float
    is_exact: bool


class Base(NamedTuple):
    """A scenario with those that are compared with it, and the bar of the difference of each."""

    row: Row
    compared: List[Row]
    bars: Dict[str, Optional[Bar]]
    fleets: List[str]


def page(rows: Sequence[Row], sums: Sequence[Sum], folder: str, note: str = "") -> str:
    """Returns the page, which needs nothing beside itself but the pictures that it links to. A note stands at its head."""
    planned = [it for it in rows if it.cost is not None]
    env = environment(OWN)
    env.globals.update(number=number, signed=partial(signed, unknown=UNKNOWN), link=lambda row: link(row, folder), difference=difference)
    return env.get_template("summary.html").render(
        rows=rows,
        note=shown(note),
        unsound=[it for it in rows if not it.is_sound],
        bases=bases_of(rows),
        sums=sums,
        charts=[(part, cost_bars(part)) for part in alike(planned)],
        longest=LONGEST,
        narrow=NARROW,
        columns=columns_of(rows),
        has_tours=not any(it.without_tour for it in rows),
        asked_rows=[it for it in planned if it.asked],
        asked=asked_of(planned),
        style=styles(env, "chart.css") + styles(env, "page.css", width=0, tall=0, names=0),
    ) + "\n"


def bases_of(rows: Sequence[Row]) -> List[Base]:
    """Returns the scenarios that others are compared with, in their order."""
    compared: Dict[str, List[Row]] = {}
    for it in rows:
        if it.is_compared:
            compared.setdefault(it.base.name, []).append(it)
    found = []
    for it in rows:
        if it.name in compared:
            own = compared[it.name]
            found.append(Base(it, own, difference_bars(own), compared_fleets(own)))
    return found


def difference_bars(rows: Sequence[Row]) -> Dict[str, Optional[Bar]]:
    """Returns the bars of differences by the names of scenarios, all of one scale; None where nothing or one end alone is known."""
    ends = {it.name: it.difference for it in rows}
    known = {name: it for name, it in ends.items() if it and it.low is not None and it.high is not None}
    return {**dict.fromkeys(ends), **bars_of(known, NARROW)}


def cost_bars(rows: Sequence[Row]) -> Dict[str, Bar]:
    """Returns the bars of costs by the names of scenarios, from 0 to the bound, and on to the cost."""
    return bars_of({it.name: Interval(it.price if it.bound is None else it.bound, it.price) for it in rows}, LONGEST)


def bars_of(known: Dict[str, Interval], pixels: float) -> Dict[str, Bar]:
    """Returns bars that begin at 0, so many pixels from the least to the greatest end."""
    ends = [0, *(end for it in known.values() for end in it if end is not None)]
    low, scale = min(ends), pixels / (max(ends) - min(ends) or 1)
    return {name: bar_of(it.low or 0, it.high or 0, low, scale) for name, it in known.items()}


def bar_of(first: int, last: int, low: int, scale: float) -> Bar:
    """Returns a bar of a number from `first` to `last`, where so many pixels stand for one, from `low` on."""
    # What is known for certain is the part of the bar that each number there has.
    sure = 0 if first <= 0 <= last else first if first > 0 else last
    return Bar((0 - low) * scale, (min(sure, 0) - low) * scale, abs(sure) * scale, (first - low) * scale, (last - first) * scale, first == last)


def alike(rows: Sequence[Row]) -> List[List[Row]]:
    """Returns the scenarios in parts that have a chart each: a cost more than twice the next smaller one begins a part. So the costs of
    a week don't make those of a day too short."""
    costs = sorted(it.price for it in rows)
    begins = [more for less, more in zip(costs, costs[1:]) if more > 2 * less > 0]
    parts: Dict[int, List[Row]] = {}
    for it in rows:
        parts.setdefault(bisect(begins, it.price), []).append(it)
    return list(parts.values())


def difference(row: Row, change: str, fleet: str, sign: int) -> Union[int, str, None]:
    """Returns by how much a bound with another number of aircraft is above the cost, or below it; `infeasible` as it is."""
    bound = row.bound_with(change, fleet)
    return sign * (int(bound) - row.price) if bound.lstrip("-").isdigit() else bound or None


def number(value: Union[int, str, None]) -> str:
    """Returns a number, a word, or nothing."""
    return "" if value is None else f"{value:,}".replace("-", "−") if isinstance(value, int) else value


def link(row: Row, folder: str) -> Optional[str]:
    """Returns where the picture of a scenario is, where it stands there and its proof holds."""
    path = os.path.join(folder, row.name, "drawn", "plan.html")
    return path if row.cost is not None and os.path.exists(path) else None
