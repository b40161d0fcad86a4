"""Days added up: what a year costs with each change, by how often a day of each type is flown."""

from collections import Counter
from typing import Dict, List, NamedTuple, Optional, Sequence

from steps.differences import Interval, Written, summed
from steps.rows import INFEASIBLE, OPTIMAL, Row
from steps.telling import AS_IT_IS

# What stands in the place of a scenario's name, which has no blank.
IN_SUM = "in sum"


class Sum(NamedTuple):
    """The days of a year with one change: in words, the scenarios of it, and why they aren't added up (empty: they are)."""

    changes: str
    rows: List[Row]
    lacks: str

    @property
    def times(self) -> int:
        """How many days there are."""
        return sum(it.times or 0 for it in self.rows)

    @property
    def outcome(self) -> str:
        """How they ended together, empty where they aren't added up."""
        outcomes = {it.outcome for it in self.rows}
        least = self.least
        if self.lacks:
            return ""
        if least is None:
            return INFEASIBLE
        return OPTIMAL if outcomes == {OPTIMAL} else "unsettled" if least.high is None else "gap"

    @property
    def least(self) -> Optional[Interval]:
        """Where the least cost of all days lies, or None."""
        parts = [(it.times or 0, it.least) for it in self.rows if it.least]
        return summed(parts) if not self.lacks and len(parts) == len(self.rows) else None

    @property
    def difference(self) -> Optional[Interval]:
        """Where that less the least cost of their bases lies, or None where they are no changes."""
        bases = [(it.base.times or 0, it.base.least) for it in self.rows if it.is_compared and it.base.least]
        return self.least - summed(bases) if self.least and bases and len(bases) == len(self.rows) else None

    @property
    def bound_difference(self) -> Optional[int]:
        """The bound less that of the bases, or None."""
        here, there = ([it.bound for it in rows] for rows in (self.rows, [it.base for it in self.rows]))
        if self.difference is None or None in here or None in there:
            return None
        of = [(it.times or 0, it.base.times or 0) for it in self.rows]
        return sum(more * (one or 0) - less * (other or 0) for (more, less), one, other in zip(of, here, there))

    def difference_told(self, written: Written = str) -> str:
        """Returns the difference of least costs in words."""
        if self.lacks or not any(it.is_compared for it in self.rows):
            return ""
        return self.difference.told(written) if self.difference else INFEASIBLE if self.outcome == INFEASIBLE else ""


def sums_of(rows: Sequence[Row]) -> List[Sum]:
    """Returns the sums: of the days as they are, and of each change that several of them have. There are none where no record tells how
    often a day is flown."""
    roots = [it for it in rows if not it.is_compared and it.times is not None]
    if not roots:
        return []
    groups: Dict[str, List[Row]] = {}
    for it in rows:
        if it.is_compared and it.base in roots:
            groups.setdefault(it.changes, []).append(it)
    several = {words: found for words, found in groups.items() if len({it.base.name for it in found}) > 1 or len(roots) == 1}
    changed = [Sum(words, found, lacking(found, roots)) for words, found in several.items()]
    return [Sum(AS_IT_IS, roots, lacking(roots, roots)), *changed]


def lacking(rows: Sequence[Row], roots: Sequence[Row]) -> str:
    """Returns why scenarios of one change can't be added up over all days, or an empty text."""
    days = Counter(it.base.name for it in rows)
    missing = [it.name for it in roots if it.name not in days]
    if missing:
        return f"not added up: {', '.join(missing)} has no such scenario"
    double = [name for name, number in days.items() if number > 1]
    if double:
        return f"not added up: {', '.join(double)} has two such scenarios"
    unsound = [it for row in rows for it in (row, row.base) if not it.is_sound]
    return f"not added up: {unsound[0].name} is {unsound[0].outcome}" if unsound else ""
