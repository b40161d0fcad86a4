"""Tours and named aircraft beside all orders of the legs and all choices, on small schedules. `bench/tours` has more of them, by hand."""

from pathlib import Path
from typing import List, Optional, Tuple

import pytest
from tour_answers import cause, tried
from walked_tours import Schedule, Start, Tail, first_choice, have_choice, is_kept

# So many schedules in all, and in each test.
COUNT, EACH = 400, 20
# Lines of a tour whose nights are at AAA, BBB, BBB and AAA, where AAA maintains: how soon maintenance comes, and where each begins.
STARTS = [Start(0, 1, "AAA"), Start(1, 3, "AAA"), Start(2, 2, "BBB"), Start(3, 1, "BBB")]
PLACES = ("AAA", "BBB", "CCC", "DDD", "G1")
# Of four aircraft the nights left and the place of each, and the lines that they take, or why they take none.
CHOICES = (
    ("1 BBB, 2 BBB, 1 AAA, 3 AAA", "3 2 0 1"),
    ("3 BBB, 3 BBB, 3 AAA, 3 AAA", "3 2 0 1"),
    ("3, 1, 2, 1", "1 0 2 3"),
    ("30 CCC, 30 AAA, 30 DDD, 30 BBB", "at AAA tails 1, starts 2"),
    ("2 AAA, 2 AAA, 3 BBB, 1 BBB", "late at AAA within 2, tails 2, starts 1"),
    ("1 CCC, 1 CCC, 1 CCC, 2", "late within 1, tails 3, starts 2"),
    ("3 BBB, 3, 3 AAA, 3", "at 2 of 4"),
    ("3 BBB, 3", "tails 2 of 4"),
    ("3 G1, 3 AAA, 3 AAA, 3 BBB", "at BBB tails 1, starts 2"),
)


@pytest.mark.parametrize("first", range(0, COUNT, EACH))
def test_tours(first: int, program: Path, scratch: Path) -> None:
    """A tour is told exactly where one of all orders is kept, and lines of named aircraft where some choice has them, then the first."""
    for number in range(first, first + EACH):
        tried(number, program, scratch)


def tails_of(text: str) -> List[Tail]:
    """Returns tails of their nights left and places."""
    parts = [it.split() for it in text.split(", ")]
    return [Tail(f"T{number}", int(it[0]), it[1] if len(it) > 1 else "") for number, it in enumerate(parts)]


@pytest.mark.parametrize("text, wanted", CHOICES)
def test_choices(text: str, wanted: str) -> None:
    """Of choices that are written by hand the same comes: the first, or the first cause that holds."""
    tails = tails_of(text)
    why = cause(PLACES, tails, STARTS)
    chosen: Optional[List[str]] = None
    if not why:
        found = first_choice(tails, STARTS) or {}
        chosen = [str(found[it.name].line) for it in tails]
    assert (why or " ".join(chosen or [])) == wanted
    assert have_choice(tails, STARTS) == (not why) or "at 2 of" in why


def nights(number: int) -> Tuple[int, int, int]:
    """Returns of a drawn schedule its aircraft, its tours and those that are kept every second night, however short."""
    schedule = Schedule(number)
    tours = list(schedule.tours())
    return schedule.used(), len(tours), sum(is_kept(schedule.nights(it, 0), 2) for it in tours)


def test_schedules() -> None:
    """Schedules are drawn of many kinds: with no tour, one, and several, of which some are kept and others aren't."""
    found = [nights(it) for it in range(100)]
    assert {min(tours, 2) for _, tours, _ in found} == {0, 1, 2} and {used for used, _, _ in found} >= {1, 2, 3, 4}
    assert any(0 < kept < tours for _, tours, kept in found)
