"""What the steps of a scenario noted, as files, each judged as it is read: a full disk, a machine that was switched off, or a hand may have
torn it."""

import json
import math
import os
import re
from typing import Any, Callable, Dict, NoReturn

from fleetplan.files import write

# What a file of an answer holds.
Answer = Dict[str, Any]
# In the folder of the solution, and beside it.
ANSWER, CHECK, SIZES = "answer.json", "check.json", "sizes.json"
# More than there is to say of any tables.
MOST_LETTERS = 1 << 24
_OUTCOMES = ("optimal", "gap", "infeasible", "unsettled")


class Torn(ValueError):
    """A file that is there and holds no answer."""


def read_json(path: str) -> Answer:
    """Returns the answer that a file holds. It raises OSError where it can't be read, and ValueError where it holds none."""
    with open(path, encoding="utf-8") as it:
        try:
            found = json.loads(it.read(MOST_LETTERS), parse_constant=_no_number)
        except RecursionError as error:
            raise ValueError("it is nested too deep") from error
    if not isinstance(found, dict):
        raise ValueError("it is no object of JSON")
    return found


def write_json(path: str, value: Answer) -> None:
    """Writes an answer."""
    write(path, json.dumps(value, sort_keys=True) + "\n")


def answer_in(path: str) -> Answer:
    """Returns the answer of a file with one of the three names, a fault where none stands there, or raises Torn where it isn't whole."""
    if not os.path.lexists(path):
        return {"fault": "a step failed: the log says which and why"}
    name = os.path.basename(path)
    try:
        answer = read_json(path)
    except OSError as error:
        raise Torn(f"{name} can't be read: {error.strerror}") from error
    except ValueError as error:
        raise Torn(f"{name} isn't whole") from error
    if not (_is_text(answer["fault"]) if "fault" in answer else _IS_WHOLE[name](answer)):
        raise Torn(f"{name} isn't whole")
    return answer


def _no_number(text: str) -> NoReturn:
    raise ValueError(f"{text} is no number")


def _is_text(value: object) -> bool:
    return isinstance(value, str)


def _are_texts(values: object) -> bool:
    return isinstance(values, list) and all(map(_is_text, values))


def _is_number(value: object) -> bool:
    return isinstance(value, (int, float)) and not isinstance(value, bool) and math.isfinite(value) and value >= 0


def _is_count(value: object) -> bool:
    return isinstance(value, int) and _is_number(value)


def _is_money(value: object) -> bool:
    """Returns whether a value is a cost or a bound: a text of digits, or None."""
    return value is None or isinstance(value, str) and re.fullmatch("-?[0-9]{1,40}", value) is not None


def _has_texts(value: object) -> bool:
    """Returns whether a value has names, each with a text."""
    return isinstance(value, dict) and all(map(_is_text, value.values()))


def _has(value: object, **forms: Callable[[object], bool]) -> bool:
    """Returns whether a value has members of these forms."""
    return isinstance(value, dict) and all(name in value and is_one(value[name]) for name, is_one in forms.items())


def _are_fleets(values: object) -> bool:
    return isinstance(values, list) and all(_has(it, name=_is_text, has=_is_count, used=_is_count) for it in values)


def _is_solved(value: object) -> bool:
    """Returns whether a value is the summary of a solve."""
    is_whole = _has(value, cost=_is_money, bound=_is_money, splits=_is_count, fleets=_are_fleets, rotations=_are_texts)
    return is_whole and _has(value, outcome=_OUTCOMES.__contains__)


def _is_run(answer: object) -> bool:
    """Returns whether an answer tells what a run of the program printed and took."""
    return _has(answer, told=_is_text, seconds=_is_number, memory=_is_count)


def _is_answer(answer: Answer) -> bool:
    """Returns whether an answer is that of a solve: what was refused, or what was solved, with the words by which its tables are read."""
    return _is_run(answer) and ("solved" not in answer or _has(answer, solved=_is_solved, reading=_are_texts))


def _is_check(answer: Answer) -> bool:
    """Returns whether an answer is that of a check, with the sums of its files; or empty, where nothing was solved."""
    return not answer or _is_run(answer) and _has(answer, sums=_has_texts)


def _is_asked(answer: Answer) -> bool:
    """Returns whether an answer tells of fleets what a proof says of other numbers of aircraft; or is empty, where nothing was solved."""
    return not answer or _has(answer, asked=_are_pairs)


def _are_pairs(values: object) -> bool:
    return isinstance(values, list) and all(isinstance(it, list) and len(it) == 2 and _is_text(it[0]) and _has_texts(it[1]) for it in values)


_IS_WHOLE: Dict[str, Callable[[Answer], bool]] = {ANSWER: _is_answer, CHECK: _is_check, SIZES: _is_asked}
