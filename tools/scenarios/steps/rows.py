"""The rows of the summary, and its columns."""

from typing import Any, Dict, List, Mapping, Optional, Sequence

from steps.differences import Fleets, Interval, Written, refleeted, without_tour
from steps.sizes import bound_in
from steps.telling import AS_IT_IS

OPTIMAL, INFEASIBLE, REFUSED, UNSOLVED, UNPROVED = "optimal", "infeasible", "refused", "NOT SOLVED", "NOT PROVED"
# The numbers that have a column in each summary. Others have one where a scenario has such a number.
ALWAYS = ("cost", "bound", "gap", "splits")


class Row:
    """A scenario in the summary: `outcome`; `solved`, what `solve` answered, where its proof holds; `told`, what else is said of it;
    `check`, what the check said; `asked`, what the proof says of other numbers of aircraft, fleet by fleet; `is_whole`, whether no
    step behind the check failed; `moved` and `left_out`, how many legs depart at another time and aren't flown, None where none may;
    seconds of the processor and the most memory in kB, None where it wasn't solved; `base`, the scenario that it is compared with, or
    itself; `changes`, what it changed of that, in words; `times`, how often a year it is flown, None where that isn't told; `choice`, the
    fleet of each flight in its plan, None where it has none."""

    def __init__(self, name: str, outcome: str, told: str = "", check: str = "", solved: Optional[Mapping[str, Any]] = None) -> None:
        self.name, self.outcome, self.told, self.check, self.solved = name, outcome, told, check, solved
        self.seconds: Optional[float] = None
        self.memory: Optional[int] = None
        self.moved: Optional[int] = None
        self.left_out: Optional[int] = None
        self.asked: Dict[str, Dict[str, str]] = {}
        self.is_whole = True
        self.base: Row = self
        self.changes = AS_IT_IS
        self.times: Optional[int] = None
        self.choice: Optional[Fleets] = None

    @property
    def is_sound(self) -> bool:
        """Whether it was solved, and its proof holds."""
        return self.outcome not in (REFUSED, UNSOLVED, UNPROVED)

    @property
    def is_compared(self) -> bool:
        """Whether it is compared with another scenario."""
        return self.base is not self

    @property
    def cost(self) -> Optional[int]:
        """What the plan costs, or None."""
        return int(self.solved["cost"]) if self.solved and self.solved["cost"] is not None else None

    @property
    def price(self) -> int:
        """The same of a scenario that has a plan."""
        return self.cost or 0

    @property
    def bound(self) -> Optional[int]:
        """What no plan costs less than, or None."""
        return int(self.solved["bound"]) if self.solved and self.solved["bound"] is not None else None

    @property
    def gap(self) -> Optional[int]:
        """How far these are apart, or None."""
        return None if self.cost is None or self.bound is None else self.cost - self.bound

    @property
    def least(self) -> Optional[Interval]:
        """Where the least cost lies, or None where nothing is proved of one."""
        return Interval(self.bound, self.cost) if self.is_sound and self.outcome != INFEASIBLE else None

    @property
    def difference(self) -> Optional[Interval]:
        """Where the least cost less that of its base lies, or None where it isn't compared or one of both has none."""
        here, there = self.least, self.base.least
        return here - there if self.is_compared and here and there else None

    @property
    def bound_difference(self) -> Optional[int]:
        """Its bound less that of its base, or None."""
        here, there = self.bound, self.base.bound
        return here - there if self.is_compared and here is not None and there is not None else None

    def difference_told(self, written: Written = str) -> str:
        """Returns the difference of least costs in words: a number where both are optimal, else where it lies."""
        if not self.is_compared or not self.is_sound or not self.base.is_sound:
            return ""
        if self.outcome == INFEASIBLE:
            return INFEASIBLE
        return self.difference.told(written) if self.difference else f"{self.base.name} is {self.base.outcome}"

    @property
    def used(self) -> Dict[str, int]:
        """How many aircraft of each fleet the plan uses."""
        return {it["name"]: it["used"] for it in self.solved["fleets"]} if self.solved else {}

    @property
    def used_differences(self) -> Dict[str, int]:
        """How many aircraft more of each fleet the plan uses than that of its base, of fleets that both have."""
        there = self.base.used
        return {fleet: used - there[fleet] for fleet, used in self.used.items() if fleet in there} if self.is_compared else {}

    @property
    def refleeted(self) -> Optional[int]:
        """How many legs have another fleet than in the plan of its base, or None where one of both has no plan."""
        here, there = self.choice, self.base.choice
        return None if not self.is_compared or here is None or there is None else refleeted(here, there)

    @property
    def without_tour(self) -> str:
        """The fleets whose flights no tour flies, so that the plan can't be flown as asked."""
        return without_tour([it["name"] for it in self.solved["fleets"]], self.solved["rotations"]) if self.solved else ""

    @property
    def numbers(self) -> Dict[str, Optional[int]]:
        """Its numbers by the names of their columns, None where there is none."""
        splits = self.solved["splits"] if self.solved else None
        flagged = {"moved": self.moved, "left out": self.left_out}
        used = {f"used {fleet}": number for fleet, number in self.used.items()}
        return {"cost": self.cost, "bound": self.bound, "gap": self.gap, "splits": splits, **flagged, **used}

    def add_fault(self, text: str) -> None:
        """Notes a step that failed behind the check."""
        self.told, self.is_whole = f"{self.told}; {text}" if self.told else text, False

    def bound_with(self, change: str, fleet: str) -> str:
        """What the proof says of one aircraft less or more of a fleet, or an empty text."""
        return bound_in(self.asked.get(fleet, {}).get(change, ""))

    @property
    def rotations(self) -> str:
        """What became of each fleet's rotation."""
        fleets = [it["name"] for it in self.solved["fleets"]] if self.solved else []
        return "; ".join(f"{fleet} {told}" for fleet, told in zip(fleets, self.solved["rotations"] if self.solved else []))


def columns_of(rows: Sequence[Row]) -> List[str]:
    """Returns the names of the columns of numbers."""
    names = dict.fromkeys(name for it in rows for name in it.numbers)
    return [name for name in names if name in ALWAYS or any(it.numbers.get(name) is not None for it in rows)]


def asked_of(rows: Sequence[Row]) -> List[str]:
    """Returns the fleets of which the proofs were asked about another number of aircraft."""
    return list(dict.fromkeys(fleet for it in rows for fleet in it.asked))


def compared_fleets(rows: Sequence[Row]) -> List[str]:
    """Returns the fleets of which a plan and that of its base both tell how many aircraft they use."""
    return list(dict.fromkeys(fleet for it in rows for fleet in it.used_differences))
