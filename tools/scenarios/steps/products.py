"""Records of several scenarios: lists in braces and ranges of numbers, of which each choice makes one with every other choice."""

import itertools
import math
import re
from fractions import Fraction
from typing import Iterator, List, NamedTuple, Sequence, Tuple

from fleetplan.errors import Unread

# How many scenarios a run may have.
MOST = 10_000
# The changes whose numbers have no sign for "more".
UNSIGNED = ("window", "optional")
NUMBER = r"[0-9]{1,13}(?:\.[0-9]{1,6})?"
RANGE = re.compile(rf"(?P<star>\*?)(?P<first>[+-]?{NUMBER})\.\.(?P<last>[+-]?{NUMBER})(?:/(?P<step>{NUMBER}))?")
# A list in braces, or a range that is a word of its own.
CHOICE = re.compile(rf"\{{(?P<list>[^{{}}]*)\}}|(?<![^\s;]){RANGE.pattern}(?![^\s;])")
LIST = re.compile(r"\{([^{}]*)\}")
# What stands for a choice of the record: its number, counted from 1.
PLACE = re.compile(r"\{([0-9]{1,2})\}")


class Made(NamedTuple):
    """A text in which each choice is made, and the texts that were chosen."""

    text: str
    chosen: Tuple[str, ...]


def products(words: str, folder: str, changes: str) -> Iterator[Tuple[Made, Made, Made]]:
    """Yields the fields of each scenario of a record, the last choice first; or raises Unread where a list or a range doesn't read, or there
    would be more than MOST."""
    made = [in_braces(words), in_braces(folder), in_changes(changes)]
    number = math.prod(len(it) for it in made)
    if number > MOST:
        raise Unread(too_many(number))
    for one, other, last in itertools.product(*made):
        yield one, other, last


def too_many(number: int) -> str:
    """Returns what is told of so many scenarios."""
    return f"there would be {number:,} scenarios, and a run may have {MOST:,}"


def in_changes(text: str) -> List[Made]:
    """Returns the texts that the changes of a record may be."""
    return combined(text, [(it, chosen_in(text, it)) for it in CHOICE.finditer(text)])


def in_braces(text: str) -> List[Made]:
    """Returns the texts that another field of a record may be. A range stands in braces there."""
    return combined(text, [(it, [at for one in it[1].split(",") for at in ranged(one.strip(), False)]) for it in LIST.finditer(text)])


def combined(text: str, choices: Sequence[Tuple["re.Match[str]", List[str]]]) -> List[Made]:
    """Returns a text with each choice in the place where it stands, or raises Unread."""
    rest = CHOICE.sub("", text)
    if "{" in rest or "}" in rest:
        raise Unread(f"the braces of {text} don't read: a list is as {{a,b}}, and none stands in another one")
    number = math.prod(len(it) for _, it in choices)
    if number > MOST:
        raise Unread(too_many(number))
    made = []
    for chosen in itertools.product(*(it for _, it in choices)):
        parts, at = [], 0
        for (found, _), one in zip(choices, chosen):
            parts += [text[at : found.start()], one]
            at = found.end()
        made.append(Made("".join([*parts, text[at:]]), chosen))
    return made


def chosen_in(text: str, found: "re.Match[str]") -> List[str]:
    """Returns what may stand in the place of a list or a range of changes."""
    before = text[: found.start()].rpartition(";")[2].split()
    is_signed = before[:1] == [] or before[0] not in UNSIGNED
    if found["list"] is None:
        return ranged(found[0], is_signed)
    return [at for one in found["list"].split(",") for at in [it.text for it in in_changes(one.strip())] for at in ranged(at, is_signed)]


def ranged(text: str, is_signed: bool) -> List[str]:
    """Returns the numbers of a range, from its first to its last one, or a text that is none as it is; or raises Unread. Where the first
    has a sign all have one."""
    found = RANGE.fullmatch(text)
    if not found:
        return [text]
    first, last = Fraction(found["first"]), Fraction(found["last"])
    if found["first"][0] not in "+-" and found["last"][0] in "+-":
        raise Unread(f"the range {text} begins without a sign, so it may not end with one")
    if not found["step"] and (first.denominator > 1 or last.denominator > 1):
        raise Unread(f"the range {text} has decimals, so it wants its step, as *1.01..1.05/0.01")
    step = Fraction(found["step"] or 1)
    count = (last - first) / step if step else Fraction(-1)
    if count < 0 or count.denominator > 1:
        raise Unread(f"the range {text} doesn't come from {found['first']} to {found['last']} by {found['step'] or 1}")
    if count >= MOST:
        raise Unread(too_many(int(count) + 1))
    sign = "+" if is_signed and found["first"][0] in "+-" else ""
    return [found["star"] + decimal(first + at * step, sign) for at in range(int(count) + 1)]


def decimal(number: Fraction, sign: str = "") -> str:
    """Returns a number to 6 decimals, with a sign before one of 0 or more."""
    whole, rest = divmod(int(abs(number) * 10**6), 10**6)
    digits = f"{whole}.{rest:06}".rstrip("0").rstrip(".")
    return f"{'-' if number < 0 else sign}{digits}"


def named(name: str, chosen: Sequence[str]) -> str:
    """Returns the name of a scenario by the name of its record and what was chosen. It doesn't depend on what else might have been."""
    return "_".join([name, *(it for it in map(part, chosen) if it)])


def part(text: str) -> str:
    """Returns what was chosen, in letters that a name may have."""
    return re.sub(r"[^A-Za-z0-9.+-]+", "-", text.lstrip("*").strip())


def placed(text: str, chosen: Sequence[str]) -> str:
    """Returns a text with what was chosen in the place of `{1}`, `{2}` and so on, or raises Unread where there is no such choice."""

    def of(found: "re.Match[str]") -> str:
        number = int(found[1])
        if not 1 <= number <= len(chosen):
            raise Unread(f"{text} speaks of choice {number}, and its record has {len(chosen)}")
        return part(chosen[number - 1])

    return PLACE.sub(of, text)
