"""Two runs side by side: what became of each scenario that both have."""

import json
import os
from collections import Counter
from typing import Dict, List, Optional, Sequence, Tuple

from fleetplan.errors import Unread
from fleetplan.texts import plain, some
from steps.differences import Fleets, refleeted
from steps.flagged import choice_of, planned
from steps.reading import Line, thousands
from steps.rows import INFEASIBLE
from steps.solving import CHECK, sum_of

HEAD = ("scenario", "A", "B", "difference", "bound", "used", "refleeted", "no tour")
FOLDER = "scenarios"
NOT_KNOWN = "not known"


def side_by_side(runs: Tuple[str, str], lines: Tuple[Sequence[Line], Sequence[Line]]) -> List[str]:
    """Returns a table of the scenarios of two runs, those that one has alone, those that ask something else in each, and the counts."""
    here, there = ({it.name: it for it in found} for found in lines)
    both = [it for it in here if it in there]
    rows = [HEAD, *(row_of(runs, here[it], there[it]) for it in both)]
    told = padded([[plain(cell) for cell in row] for row in rows])
    for side, own, other in (("A", here, there), ("B", there, here)):
        alone = [plain(it) for it in own if it not in other]
        told += [f"Only in {side}: {some(alone)}"] if alone else []
    asks = [plain(it) for it in both if any(here[it][name] != there[it][name] for name in ("changes", "base", "times"))]
    told += [f"Other changes, bases or times in A than in B: {some(asks)}"] if asks else []
    return [*told, counts([kind_of(here[it], there[it]) for it in both if not here[it].is_sum])]


def row_of(runs: Tuple[str, str], here: Line, there: Line) -> List[str]:
    """Returns the row of a scenario: how it ended and what it costs in each run, and what is other in the second."""
    legs = "" if here.is_sum else legs_told(runs, here, there)
    bound = f"{there.bound - here.bound:+,}" if here.bound is not None and there.bound is not None else ""
    tours = " | ".join(it["no tour"] or "-" for it in (here, there)) if here["no tour"] or there["no tour"] else ""
    return [here.name, ended(here), ended(there), difference_told(here, there), bound, used_told(here, there), legs, tours]


def ended(line: Line) -> str:
    """Returns how a scenario ended, and its cost where it has one."""
    return f"{line['outcome']}{f' {thousands(line.cost)}' if line.cost is not None else ''}"


def difference_told(here: Line, there: Line) -> str:
    """Returns by how much the least cost is more in the second run: a number where both are known, else where it lies."""
    if here.is_infeasible or there.is_infeasible:
        return "" if here.is_infeasible and there.is_infeasible else f"{INFEASIBLE} in {'A' if here.is_infeasible else 'B'}"
    least, other = here.least, there.least
    return (other - least).told(signed) or NOT_KNOWN if least and other else NOT_KNOWN


def signed(number: int) -> str:
    """Returns a difference."""
    return f"{number:+,}" if number else "0"


def used_told(here: Line, there: Line) -> str:
    """Returns how many aircraft more or less the second run uses, of the fleets of which that is another number."""
    used, other = here.used, there.used
    return ", ".join(f"{fleet} {other[fleet] - used[fleet]:+}" for fleet in used if fleet in other and other[fleet] != used[fleet])


def legs_told(runs: Tuple[str, str], here: Line, there: Line) -> str:
    """Returns how many legs have another fleet in the second run, where the plans stand that were checked."""
    if here.cost is None or there.cost is None:
        return ""
    plans = [plan_in(os.path.join(run, FOLDER, here["scenario"])) for run in runs]
    own, other = plans
    return "" if own is None or other is None else str(refleeted(own, other))


def plan_in(folder: str) -> Optional[Fleets]:
    """Returns the fleet of each flight in the plan of a scenario, or None where there isn't the one that was checked."""
    path = os.path.join(folder, "solved", "plan.csv")
    try:
        with open(os.path.join(folder, CHECK), encoding="utf-8") as it:
            checked = json.load(it)["sums"]["plan.csv"]
        return choice_of(planned(os.path.dirname(path))) if sum_of(path) == checked else None
    except (OSError, ValueError, KeyError, TypeError, Unread):
        return None


def kind_of(here: Line, there: Line) -> str:
    """Returns in a word what the second run made of a scenario."""
    if here.is_infeasible and there.is_infeasible:
        return "same"
    least, other = here.least, there.least
    if not least or not other:
        return NOT_KNOWN
    found = other - least
    if found == (0, 0):
        return "same"
    return "dearer" if found.low is not None and found.low > 0 else "cheaper" if found.high is not None and found.high < 0 else NOT_KNOWN


def counts(kinds: Sequence[str]) -> str:
    """Returns how many scenarios are dearer and cheaper in the second run."""
    found: Dict[str, int] = Counter(kinds)
    told = ", ".join(f"{found[it]} {it}" for it in ("same", "cheaper", "dearer", NOT_KNOWN) if found[it])
    return f"{len(kinds)} scenarios in both{f'; of B: {told}' if told else ''}."


def padded(rows: Sequence[Sequence[str]]) -> List[str]:
    """Returns rows with columns of one width each."""
    widths = [max(len(row[at]) for row in rows) for at in range(len(rows[0]))]
    return ["  ".join(cell.ljust(width) for cell, width in zip(row, widths)).rstrip() for row in rows]
