"""Few changes: what each costs, flights that keep their fleet, and what is told of a plan."""

import shutil
from pathlib import Path
from typing import List, Tuple

import pytest
from schedule_lines import text
from ssim_tests.test_features import back, out
from ssim_tests.test_flyable import GIVEN
from ssim_tests.test_plans import DATE, file_of
from ssim_tests.test_solved import run
from ssim_tests.trying import EXAMPLE, asked, records, standing

FILE = EXAMPLE / "season.ssim"
# Two fleets, of which each costs 100 a departure and nothing else.
PRICES = "fleet,departure,minute,longest,closed\n320,100,0,150,\nE90,100,0,,\n"
FLEETS = "fleet,aircraft,turn\n320,9,30\nE90,9,30\n"


@pytest.mark.usefixtures("program")
@pytest.mark.parametrize("charge, total", [(50, 483010), (100, 484500), (200, 486600), (400, 486920)])
def test_totals(charge: int, total: int, scratch: Path) -> None:
    """The cheapest plans of the example's date with what changes cost, as HiGHS has them too. The cost without that is told."""
    assert asked("tables", FILE, scratch / "day", "--date", DATE, *GIVEN, "--change-cost", charge)[0] == 0
    assert run("solve", scratch / "day")[1][:2] == ["outcome: optimal", f"cost: {total}"]
    _, told = asked("plan", FILE, scratch / "day", scratch / "new", "--anyway")
    filed = asked("tables", FILE, scratch / "filed", "--date", DATE, *GIVEN)[0]
    before, behind = (dict(it.split(",") for it in records(scratch / folder, "plan.csv")) for folder in ("filed", "day"))
    count = sum(before[it] != behind[it] for it in before)
    assert (filed, f"ssim: the plan costs {total}, and {total - charge * count} without {charge} for each change\n" in told) == (0, True)
    (scratch / "filed" / "plan.csv").write_bytes((scratch / "day" / "plan.csv").read_bytes())
    assert run("judge", scratch / "filed")[1][0] == f"legal: cost {total - charge * count}"
    assert (f"ssim: {count} legs change: " in told) == (count > 0) and (charge < 400) == (count > 0)


def made(folder: Path, *words: object, keep: str = "flight\n", option: str = "--week") -> Tuple[int, str]:
    """Makes tables of two flights on each day, with a file of flights to be kept."""
    for name, data in (("season", text(file_of(out(), back()))), ("prices", PRICES), ("fleets", FLEETS), ("keep", keep)):
        (folder / name).write_text(data, encoding="ascii")
    given = ["--fleets", folder / "fleets", "--costs", folder / "prices"]
    shutil.rmtree(folder / "day", ignore_errors=True)
    status, told = asked("tables", folder / "season", folder / "day", option, DATE, *given, *words)
    return status, told.replace(f"{folder}/", "")


def costs_of(folder: Path, *flights: str) -> List[str]:
    """Returns the records of costs of flights."""
    return [it for it in records(folder / "day", "costs.csv") if it.split(",")[0] in flights]


def test_charge(scratch: Path) -> None:
    """Each fleet but the one as filed costs more; the 320 may not fly the longer leg out."""
    assert made(scratch, "--change-cost", 70)[0] == 0
    assert costs_of(scratch, "ZZ1D1", "ZZ2D7") == ["ZZ1D1,E90,170", "ZZ2D7,320,100", "ZZ2D7,E90,170"]


def test_keep(scratch: Path) -> None:
    """A flight keeps its fleet on each of its days, or on one alone; a flight that isn't there is told."""
    status, told = made(scratch, "--keep", scratch / "keep", keep="flight\nZZ2D3\nZZ9\n")
    assert status == 0 and "ssim: 1 legs keep their fleet\nssim: 1 flights of keep aren't among these legs: ZZ9\n" in told
    assert costs_of(scratch, "ZZ2D3", "ZZ2D4") == ["ZZ2D3,320,100", "ZZ2D4,320,100", "ZZ2D4,E90,100"]
    assert "ssim: 7 legs keep their fleet\n" in made(scratch, "--keep", scratch / "keep", keep="flight\nZZ2\n")[1]
    assert len([it for it in records(scratch / "day", "costs.csv") if it.startswith("ZZ2")]) == 7


def test_kept_and_not_allowed(scratch: Path) -> None:
    """A flight that its own fleet may not fly can't be kept, and nothing is written."""
    line = "ssim: keep keeps ZZ1D1 with 320, which may not fly it by its costs\n"
    assert made(scratch, "--keep", scratch / "keep", keep="flight\nZZ1\n") == (6, line)
    assert standing(scratch / "day") is None


def test_most(scratch: Path) -> None:
    """No cost is more than tables may have."""
    line = "ssim: season line 3: E90 costs 100 and a change 999999999901 (bytes 73 to 75), it should be 1000000000000 at most\n"
    assert made(scratch, "--change-cost", 999_999_999_901) == (6, line)
    status, told = made(scratch, "--change-cost", "-1")
    assert (status, told.splitlines()[0]) == (2, "ssim: --change-cost -1: a whole number from 0 to 1000000000000 is wanted")


@pytest.mark.usefixtures("program")
def test_changes_told(scratch: Path) -> None:
    """A plan's changes are told by their fleets, each flight with its days."""
    made(scratch, "--change-cost", 70)
    plan = [it.split(",")[0] for it in records(scratch / "day", "plan.csv")]
    own = "".join(f"{it},{'E90' if it in ('ZZ1D2', 'ZZ1D1', 'ZZ2D2', 'ZZ2D1') else '320'}\n" for it in plan)
    (scratch / "day" / "plan.csv").write_text(f"flight,fleet\n{own}", encoding="ascii")
    _, told = asked("plan", scratch / "season", scratch / "day", scratch / "new")
    assert "ssim: 4 legs change: 320 to E90 ZZ1D12 ZZ2D12\n" in told
    # The 320 may not fly ZZ1, so the plan has no cost.
    assert "the plan costs" not in told
    (scratch / "day" / "plan.csv").write_text("flight,fleet\n" + "".join(f"{it},E90\n" for it in plan), encoding="ascii")
    _, told = asked("plan", scratch / "season", scratch / "day", scratch / "new")
    assert "ssim: the plan costs 2380, and 1400 without 70 for each change\n" in told
