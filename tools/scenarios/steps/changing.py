"""What a change of tables is: a function on them with its words, and the parts that several of them have."""

from fractions import Fraction
from typing import Callable, Dict, List, NamedTuple, Optional

from costing.repricing import Scaling
from fleetplan.errors import Unread
from fleetplan.records import Rows
from steps.products import decimal

# The forms of a fleet's or a flight's name, of a station, and of a factor.
NAME = "([A-Z0-9]{1,8})"
CODE = "([A-Z]{3})"
FACTOR = r"\*([0-9]{1,6}(?:\.[0-9]{1,6})?)"


class Tables(Dict[str, Rows]):
    """Of each file's name its records; `folder`, where the files stand as they were before any change; `scaling`, by which factors demand and
    fuel are more or less than there."""

    def __init__(self, folder: str, rows: Dict[str, Rows]) -> None:
        super().__init__(rows)
        self.folder, self.scaling = folder, Scaling()


class Change(NamedTuple):
    """What a text changes, as a function on tables, and what it tells in words."""

    make: Callable[[Tables], None]
    told: str


# What reads the words of a change behind its name, which have its form, or returns None where a number is out of its range.
Reader = Callable[..., Optional[Change]]


class Step(NamedTuple):
    """Another whole number: so many more (`+`), less (`-`), or just so many."""

    sign: str
    number: int

    def of(self, has: int) -> int:
        """Returns the number in the place of one."""
        return {"": self.number, "+": has + self.number, "-": has - self.number}[self.sign]

    def told(self, in_all: str, more: str, less: str, as_it_is: str) -> str:
        """Returns the words for just so many, so many more, so many less, or none of these."""
        return as_it_is if self.sign and not self.number else {"": in_all, "+": more, "-": less}[self.sign]


def times(price: int, factor: Fraction) -> int:
    """Returns a cost times a factor, as the nearest whole number, and of two as near the one further from 0."""
    count, rest = divmod(abs(price) * factor.numerator, factor.denominator)
    count += 2 * rest >= factor.denominator
    return count if price >= 0 else -count


def by_part(factor: Fraction) -> str:
    """Returns a factor, which has an end as a decimal, as percents more or less."""
    return "as much" if factor == 1 else f"{decimal(abs(factor - 1) * 100)} % {'more' if factor > 1 else 'less'}"


def record_of(tables: Tables, name: str, key: str) -> List[str]:
    """Returns the record of a station, a fleet or a flight, or raises Unread."""
    found = next((it for it in tables[name] if it[0] == key), None)
    if found is None:
        raise Unread(f"{name} has no {key}")
    return found
