"""What a summary.csv says, for what is made of it."""

import os
from typing import Dict, List, Optional, Sequence

from fleetplan.errors import Unread
from fleetplan.records import records_of
from fleetplan.texts import plain
from steps.differences import Interval
from steps.rows import INFEASIBLE, OPTIMAL
from steps.sums import IN_SUM

NAME = "summary.csv"
# The columns without which there is nothing to make.
WANTED = ("scenario", "outcome", "cost", "bound", "base", "changes", "cost difference", "no tour")
USED = "used "
# The outcomes of which a least cost is told.
LEAST = (OPTIMAL, "gap", "unsettled")


class Line:
    """A record of a summary, by the names of its columns; empty where it has no such column."""

    def __init__(self, fields: Dict[str, str]) -> None:
        self.fields = fields

    def __getitem__(self, name: str) -> str:
        return self.fields.get(name, "")

    @property
    def name(self) -> str:
        """The scenario, or what is added up."""
        return f"{IN_SUM}: {self['changes']}" if self.is_sum else self["scenario"]

    @property
    def is_sum(self) -> bool:
        """Whether it is a sum of scenarios."""
        return self["scenario"] == IN_SUM

    @property
    def is_base(self) -> bool:
        """Whether it is a scenario that is compared with no other one."""
        return self["base"] == self["scenario"]

    @property
    def cost(self) -> Optional[int]:
        """What the plan costs, or None."""
        return int(self["cost"]) if self["cost"] else None

    @property
    def bound(self) -> Optional[int]:
        """What no plan costs less than, or None."""
        return int(self["bound"]) if self["bound"] else None

    @property
    def least(self) -> Optional[Interval]:
        """Where the least cost lies, or None where none is known of."""
        return Interval(self.bound, self.cost) if self["outcome"] in LEAST else None

    @property
    def used(self) -> Dict[str, int]:
        """How many aircraft of each fleet the plan uses."""
        found = {name[len(USED) :]: text for name, text in self.fields.items() if name.startswith(USED) and " difference" not in name}
        return {fleet: int(text) for fleet, text in found.items() if text}

    @property
    def is_infeasible(self) -> bool:
        """Whether no plan is legal."""
        return self["outcome"] == INFEASIBLE


def lines_of(run: str) -> List[Line]:
    """Returns the records of a run's summary, or raises Unread where there is none, or one without the columns that are wanted."""
    path = os.path.join(run, NAME)
    header: Sequence[str] = ()
    found = []
    for record in records_of(path):
        texts = record.texts
        if record.number == 1:
            header = texts
            missing = [it for it in WANTED if it not in header]
            if missing:
                raise Unread.at(path, 1, f"there is no column {', '.join(missing)}: call the run once more, which writes the summary anew")
        elif len(texts) != len(header):
            raise Unread.at(path, record.number, f"it has {len(texts)} fields, it should have {len(header)}")
        else:
            found.append(line_of(path, record.number, dict(zip(header, texts))))
    if not header:
        raise Unread.of(path, "is empty")
    return found


def line_of(path: str, number: int, fields: Dict[str, str]) -> Line:
    """Returns a record whose numbers read, or raises Unread."""
    line = Line(fields)
    try:
        line.cost, line.bound, line.used
    except ValueError:
        raise Unread.at(path, number, "a cost, a bound or a number of aircraft is none") from None
    return line


def thousands(number: int) -> str:
    """Returns a number with commas."""
    return f"{number:,}"


def in_thousands(text: str) -> str:
    """Returns a text with commas in its numbers."""
    return " ".join(f"{int(it):,}" if it.lstrip("-").isdigit() else it for it in text.split(" "))


def markdown(rows: Sequence[Sequence[str]]) -> List[str]:
    """Returns the lines of a table, whose first row is its head."""
    cells = [[plain(it).replace("|", "\\|") for it in row] for row in rows]
    return [f"| {' | '.join(row)} |" for row in cells[:1]] + ["|" + "---|" * len(rows[0])] + [f"| {' | '.join(row)} |" for row in cells[1:]]
