"""What hints say of a least night that leaves no tour. What the program would tell is written by hand."""

import re
from pathlib import Path
from typing import List

import pytest
from fleetplan.calls import Roster
from fleetplan.words import Call
from hints import least_nights, rotations
from hints.saying import WHOLE, Hint

TOP = Path(__file__).resolve().parent.parent.parent


def has_tour_up_to(most: int, patch: pytest.MonkeyPatch) -> List[int]:
    """Has the program tell a tour with nights of so many minutes or less, and returns the list of those that it is asked about."""
    asked: List[int] = []

    def tails(*_: object, least_night: int, **__: object) -> Roster:
        asked.append(least_night)
        return Roster("2026-01-01 A320/1: FP1 FP2\n" if least_night <= most else "A320: none\n")

    patch.setattr(least_nights, "tails", tails)
    return asked


@pytest.mark.parametrize("most, wanted", [(1440, 610), (610, 610), (609, 555), (480, 480), (425, 425)])
def test_least_night(most: int, wanted: int, monkeypatch: pytest.MonkeyPatch) -> None:
    """The greatest least night that gives a tour is found by some of the stays that there may be, and comes before more days."""
    asked = has_tour_up_to(most, monkeypatch)
    call = Call(["solve", str(TOP / "examples" / "night-hours"), "--days", "2", "--least-night", "611"])
    hint = Hint(0)
    rotations.explain(hint, "./fleetplan", call, [("A320", "none")])
    lines = hint.told(WHOLE).splitlines()
    assert len(asked) <= 4 and set(asked) <= {0, 425, 460, 480, 515, 555, 610}
    found = re.search(r"--least-night (\d+) is the most that gives a tour; else allow --days 3", lines[0])
    assert found and int(found[1]) == wanted
    assert lines[1] == f"    ./fleetplan solve {TOP / 'examples' / 'night-hours'} --days 2 --least-night {found[1]}"


def test_no_least_night(monkeypatch: pytest.MonkeyPatch) -> None:
    """Where none helps, more days are named as ever."""
    has_tour_up_to(-1, monkeypatch)
    hint = Hint(0)
    call = Call(["solve", str(TOP / "examples" / "night-hours"), "--days", "2", "--least-night", "611"])
    rotations.explain(hint, "./fleetplan", call, [("A320", "none")])
    assert "--days 3" in hint.told(WHOLE) and "--least-night 6" not in hint.told(WHOLE).splitlines()[0]
    assert hint.told(WHOLE).splitlines()[1].endswith("--days 3 --least-night 611")
