"""Numbers with decimals: their form, how they are rounded, and how they are written."""

import re
from fractions import Fraction
from typing import Dict, Optional

from fleetplan.forms import MOST_DIGITS, TRILLION, Wrong, oddity

MOST_DECIMALS = 6
_NUMBER = re.compile(r"[0-9]{1,%d}(?:\.[0-9]{1,%d})?" % (MOST_DIGITS, MOST_DECIMALS))


def amount(most: int = TRILLION) -> Wrong:
    """Returns what says of a number of 0 or more, with or without decimals, what is wrong with it."""
    form = f"a number from 0 to {most} is wanted, with at most {MOST_DECIMALS} decimals"

    def wrong(text: str) -> Optional[str]:
        if _NUMBER.fullmatch(text):
            return None if Fraction(text) <= most else f"it may be 0 to {most}"
        better = re.sub(r"[ '_]", "", text).replace(",", ".")
        write = f" (write {better})" if better != text and _NUMBER.fullmatch(better) else ""
        return f"{form}{write}" if write else oddity(text) or form

    return wrong


def halves_up(count: int, of: int) -> int:
    """Returns a fraction of 0 or more as the nearest whole number, and of two as near the greater one."""
    return (2 * count + of) // (2 * of)


def rounded(number: Fraction) -> int:
    """Returns the same of a number."""
    return halves_up(number.numerator, number.denominator)


class Writer:
    """Writes counts of a unit's parts as decimals. The unit has so many parts that at most one factor of them is 3, and all others are 2 or
    5, as what is reckoned from decimals and minutes of an hour has."""

    def __init__(self, unit: int) -> None:
        self.unit = unit
        self.thirds = 3 if unit % 3 == 0 else 1
        self.places = _places(unit // self.thirds)
        self.factor = 10**self.places // (unit // self.thirds)
        self.known: Dict[int, str] = {}

    def text(self, count: int) -> str:
        """Returns a count in full where that ends, and else with one decimal more than any that ends has. So the sum of some texts lies on the
        same side of each half, or on it, as the sum of the counts."""
        if count not in self.known:
            own, rest = divmod(count, self.thirds)
            places = self.places + (rest > 0)
            number = halves_up(count * 10**places, self.unit) if rest else own * self.factor
            whole, part = divmod(number, 10**places)
            decimals = f"{part:0{places}}".rstrip("0") if part else ""
            self.known[count] = f"{whole}.{decimals}" if decimals else str(whole)
        return self.known[count]


def _places(unit: int) -> int:
    """Returns how many decimals write each count of a unit's parts, or raises ValueError where none do."""
    rest, factors = unit, {2: 0, 5: 0}
    for factor in factors:
        while rest % factor == 0:
            rest, factors[factor] = rest // factor, factors[factor] + 1
    if rest != 1:
        raise ValueError(f"parts of {unit} have no decimals")
    return max(factors.values())


def written(number: Fraction) -> str:
    """Returns a number of 0 or more in full."""
    return Writer(number.denominator).text(number.numerator)
