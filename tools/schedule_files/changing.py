"""Few changes: what a leg costs more with another fleet than as filed, flights that keep theirs, and what a plan changes, as it is told."""

import os
import re
from collections import Counter
from typing import Dict, Iterable, Iterator, List, NamedTuple, Optional, Sequence, Tuple

from costing.figures import read_flights
from fleetplan.errors import Unread
from fleetplan.forms import TRILLION
from fleetplan.tables import ASKED, HEADERS, NO_FLEET
from fleetplan.texts import some
from schedule_files.choosing import EACH, keys_of
from schedule_files.costing import Cost
from schedule_files.files import rows
from schedule_files.layout import BadLine
from schedule_files.reading import Schedule
from schedule_files.selecting import Choice, Flown


class Changing(NamedTuple):
    """What a change costs, and the file of the flights that keep their fleet, or None."""

    cost: int = 0
    keep: Optional[str] = None


class Charged:
    """The costs of tables with what changes cost, and without other fleets for flights that are kept."""

    def __init__(self, changing: Changing, schedule: Schedule, flown: Sequence[Flown], costs: Iterable[Cost]) -> None:
        self.changing = changing
        filed = {it.name: it for it in flown}
        listed = read_flights(changing.keep) if changing.keep else {}
        self.kept = {it.name for it in flown if any(key in listed for key in keys_of(it))}
        self.unknown = sorted(set(listed) - {EACH} - {key for it in flown for key in keys_of(it) if key})
        self.costs: List[Cost] = []
        for flight, fleet, cost in costs:
            is_change = fleet != filed[flight].fleet
            if is_change and cost + changing.cost > TRILLION:
                what = f"{fleet} costs {cost} and a change {changing.cost}"
                raise BadLine(schedule.path, filed[flight].leg.number, what, "bytes 73 to 75", f"{TRILLION} at most")
            if not is_change or flight not in self.kept:
                self.costs.append((flight, fleet, cost + changing.cost * is_change))
        self.want_filed(filed)

    def want_filed(self, filed: Dict[str, Flown]) -> None:
        """Refuses a flight that is kept, and that its own fleet may not fly."""
        lacking = [it for it in filed if it in self.kept - {flight for flight, _, _ in self.costs}]
        if lacking:
            raise Unread.of(str(self.changing.keep), f"keeps {lacking[0]} with {filed[lacking[0]].fleet}, which may not fly it by its costs")

    def told(self) -> Iterator[str]:
        """Tells what is charged and kept."""
        if self.changing.cost:
            yield f"each fleet but the one as filed costs {self.changing.cost} more: plan tells the cost of a plan without that"
        if self.changing.keep:
            yield f"{len(self.kept)} legs keep their fleet"
        if self.unknown:
            yield f"{len(self.unknown)} flights of {self.changing.keep} aren't among these legs: {some(self.unknown)}"


class Change(NamedTuple):
    """A leg of a plan: its name, and the fleets that it has as filed and by the plan."""

    flight: str
    filed: str
    planned: str


def changes_told(folder: str, planned: Sequence[Change], charge: int) -> Iterator[str]:
    """Tells which legs a plan gives another fleet, and what the plan costs without what a change costs, where costs.csv has it."""
    changed = [it for it in planned if it.planned not in (it.filed, NO_FLEET)]
    if changed:
        kinds: Dict[Tuple[str, str], List[str]] = {}
        for it in changed:
            kinds.setdefault((it.filed, it.planned), []).append(it.flight)
        yield f"{len(changed)} legs change: {'; '.join(f'{old} to {new} {gathered(own)}' for (old, new), own in kinds.items())}"
    cost = cost_of(folder) if charge else None
    if cost is not None:
        yield f"the plan costs {cost}, and {cost - charge * len(changed)} without {charge} for each change"


def gathered(flights: Iterable[str]) -> str:
    """Returns flights with blanks between; those that differ in their day alone are one, with all their days."""
    days: Dict[str, str] = {}
    for it in flights:
        found = re.fullmatch("(.+)D([1-7])", it)
        plain, day = (found[1], found[2]) if found else (it, "")
        days[plain] = days.get(plain, "") + day
    return " ".join(f"{plain}D{''.join(sorted(own))}" if own else plain for plain, own in days.items())


def cost_of(folder: str) -> Optional[int]:
    """Returns what the plan of a folder costs by its tables, or None where they don't have all of it."""
    costs = prices(folder, "costs.csv", 2)
    shifts, skips = (prices(folder, ASKED[it], keys) for it, keys in (("windows", 2), ("optional", 1)))
    total = 0
    for flight, fleet, *shift in rows(os.path.join(folder, "plan.csv"), HEADERS["plan.csv"], (*HEADERS["plan.csv"], "shift")):
        own = [skips.get((flight,))] if fleet == NO_FLEET else [costs.get((flight, fleet))]
        own += [shifts.get((flight, it)) for it in shift if it != "0"]
        if None in own:
            return None
        total += sum(int(it) for it in own if it is not None)
    return total


def prices(folder: str, name: str, keys: int) -> Dict[Tuple[str, ...], str]:
    """Returns the last field of each record of a table by its first ones, none where there is no such table."""
    path = os.path.join(folder, name)
    return {tuple(it[:keys]): it[keys] for it in rows(path, HEADERS[name])} if os.path.isfile(path) else {}


def codes_told(schedule: Schedule, choice: Choice) -> Iterator[str]:
    """Tells of each family how many records of legs have which of its codes."""
    counts = Counter(it.type for it in schedule.legs if not choice.refused(it))
    for fleet in sorted(set(choice.families.values())):
        own = [f"{code} in {count} records" for code, count in sorted(counts.items()) if choice.fleet_of(code) == fleet]
        yield f"codes of {fleet} in the new file: {', '.join(own) or 'none'}"
