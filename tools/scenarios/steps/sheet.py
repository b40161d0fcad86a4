"""The summary as a table: a record of each scenario, and one of each sum."""

from typing import List, Optional, Sequence

from fleetplan.records import text_of as table_text
from steps.rows import Row, asked_of, columns_of, compared_fleets
from steps.sizes import CHANGES
from steps.sums import IN_SUM, Sum

# Between the numbers of a scenario and what its proof says of other sizes: what it is compared with, what it changed, and what that made.
COMPARED = ("base", "changes", "cost difference", "bound difference")
TIMES = "times"
ENDING = ("refleeted", "no tour")
LAST = ("rotations", "check", "told", "seconds", "memory MB")


class Sheet:
    """The columns of a summary, and its records."""

    def __init__(self, rows: Sequence[Row], sums: Sequence[Sum]) -> None:
        self.rows, self.sums = rows, sums
        self.numbers = columns_of(rows)
        self.fleets = compared_fleets(rows)
        self.asked = [(change, fleet) for fleet in asked_of(rows) for change in CHANGES]
        self.has_times = any(it.times is not None for it in rows)

    @property
    def header(self) -> List[str]:
        """The names of the columns."""
        times = [TIMES] if self.has_times else []
        used = [f"used difference {it}" for it in self.fleets]
        asked = [f"one {change} {fleet}" for change, fleet in self.asked]
        return ["scenario", "outcome", *self.numbers, COMPARED[0], *times, *COMPARED[1:], *used, *ENDING, *asked, *LAST]

    def record(self, row: Row) -> List[str]:
        """Returns the record of a scenario."""
        numbers = (row.numbers.get(name) for name in self.numbers)
        used = row.used_differences
        compared = [row.base.name, *self.times(row.times), row.changes, row.difference_told(), shown(row.bound_difference)]
        took = ["", ""] if row.seconds is None or row.memory is None else [f"{row.seconds:.2f}", f"{row.memory / 1000:.1f}"]
        ending = [shown(row.refleeted), row.without_tour]
        asked = [row.bound_with(change, fleet) for change, fleet in self.asked]
        of_fleets = [shown(used.get(it)) for it in self.fleets]
        told = [row.rotations, row.check, row.told]
        return [row.name, row.outcome, *map(shown, numbers), *compared, *of_fleets, *ending, *asked, *told, *took]

    def times(self, number: Optional[int]) -> List[str]:
        """Returns the field of how often a day is flown, where there is such a column."""
        return [shown(number)] if self.has_times else []

    def sum_record(self, it: Sum) -> List[str]:
        """Returns the record of a sum."""
        least = it.least
        numbers = {"cost": least.high, "bound": least.low} if least else {}
        if least and least.low is not None and least.high is not None:
            numbers["gap"] = least.high - least.low
        compared = ["", *self.times(it.times), it.changes, it.difference_told(), shown(it.bound_difference)]
        rest = len(self.fleets) + len(ENDING) + len(self.asked)
        fields = [IN_SUM, it.outcome, *(shown(numbers.get(name)) for name in self.numbers), *compared]
        return [*fields, *[""] * rest, "", "", it.lacks, "", ""]

    def text(self) -> str:
        """Returns the table."""
        return table_text(tuple(self.header), [*map(self.record, self.rows), *map(self.sum_record, self.sums)])


def shown(number: Optional[int]) -> str:
    """Returns a number as a field, empty where there is none."""
    return "" if number is None else str(number)
