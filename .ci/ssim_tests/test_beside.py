"""Other times and legs that may be left out beside the tables, legs that a planner adds or changes there, and a plan that brings a
flight to one date twice."""

from pathlib import Path
from typing import Dict, List, Optional, Sequence, Tuple

import pytest
from schedule_lines import leg
from ssim_tests.test_features import DATE, back, out
from ssim_tests.test_plans import file_of, planned
from ssim_tests.trying import call, records, standing

FLEETS = "fleet,aircraft,turn\n320,9,30\n"
TWO = [out(), back(), out(7, "ZRH 0700 +0100 GVA 0745 +0100"), out(7, "GVA 0830 +0100 LIS 1010 +0000", sequence=2)]
# Of each case the option of the dates, the caller's file of other times and of legs that may be left out, or None, and the records of
# tables by file.
GIVEN: Dict[str, Tuple[str, Optional[str], Optional[str], Dict[str, List[str]]]] = {
    "other times of a leg": ("--date", "flight,shift,extra\nZZ2,-5,100\nZZ2,010,250\nZZ7B,5,-1\n", None, {
        "windows.csv": ["ZZ7B,5,-1", "ZZ2,-5,100", "ZZ2,010,250"],
        "plan.csv": ["ZZ7A,320,0", "ZZ1,320,0", "ZZ7B,320,0", "ZZ2,320,0"],
    }),
    "other times of each leg, but of one that has its own": ("--date", "flight,shift,extra\n*,-5,100\n*,5,100\nZZ1,10,0\n", None, {
        "windows.csv": ["ZZ7A,-5,100", "ZZ7A,5,100", "ZZ1,10,0", "ZZ7B,-5,100", "ZZ7B,5,100", "ZZ2,-5,100", "ZZ2,5,100"],
    }),
    "legs that may be left out": ("--date", None, "flight,skip\nZZ2,0\nZZ1,8000\n", {
        "optional.csv": ["ZZ1,8000", "ZZ2,0"],
        "plan.csv": ["ZZ7A,320", "ZZ1,320", "ZZ7B,320", "ZZ2,320"],
    }),
    "both of a week, one leg's on a day of its own": ("--week", "flight,shift,extra\nZZ1,5,1\nZZ1D3,-5,2\n", "flight,skip\nZZ7BD6,3\nZZ2D7,4\n", {
        "windows.csv": ["ZZ1D1,5,1", "ZZ1D2,5,1", "ZZ1D3,-5,2", "ZZ1D4,5,1", "ZZ1D5,5,1", "ZZ1D6,5,1", "ZZ1D7,5,1"],
        "optional.csv": ["ZZ7BD6,3", "ZZ2D7,4"],
    }),
    "neither": ("--date", "flight,shift,extra\n", "flight,skip\n", {"windows.csv": [], "optional.csv": [], "plan.csv": [
        "ZZ7A,320,0", "ZZ1,320,0", "ZZ7B,320,0", "ZZ2,320,0",
    ]}),
}  # fmt: skip
# Of each caller's file of other times what is told of it.
REFUSED = {
    "flight,minutes,extra\n": "record 1: flight,minutes,extra, it should be flight,shift,extra",
    "flight,shift,extra\nZZ1,0,5\n": 'record 2: shift is "0": each leg may depart at its own time anyway',
    "flight,shift,extra\nZZ1,721,5\n": 'record 2: shift is "721": it may be -720 to 720',
    "flight,shift,extra\nzz1,5,5\n": 'record 2: flight is "zz1": capital letters are wanted (write ZZ1)',
    "flight,shift,extra\nZZ1,5,5\nZZ1,05,6\n": "record 3: ZZ1 5 stands twice, it should stand once",
    "flight,shift,extra\n" + "".join(f"*,{it},0\n" for it in range(1, 10)): "9 records of *, it should have 8 at most",
}
# Of each change of legs.csv and plan.csv, a text there and what it becomes, the status and what is told.
FERRY = "FF1,LHR,10:00,ZRH,11:40"
CHANGED = {
    "a leg that is added and flown": (
        (("ZZ2,LHR", f"{FERRY}\nZZ2,LHR"), ("ZZ2,320", "FF1,320\nZZ2,320")), 0,
        "0 legs have another aircraft type, and 0 records are new\nssim: 1 legs of legs.csv aren't in the file, and aren't written into it: FF1 by 320",
    ),
    "a leg that is added and left out": (
        (("ZZ2,LHR", f"{FERRY}\nZZ2,LHR"), ("ZZ2,320", "FF1,-\nZZ2,320")), 0, "0 legs have another aircraft type, and 0 records are new",
    ),
    "a leg of the plan that no table has": (
        (("", ""), ("ZZ2,320", "FF1,320\nZZ2,320")), 6, "day/plan.csv record 3: the flight is FF1, it should be ZZ2 as in names.csv",
    ),
    "a departure that is changed in legs.csv": (
        (("ZZ2,LHR,11:00", "ZZ2,LHR,11:10"), ("", "")), 6,
        "day/names.csv record 3: ZZ2 is LHR 11:00 ZRH 11:50 by line 4 of season, it should be LHR 11:10 ZRH 11:50 as in legs.csv, in the file that "
        "the tables are of",
    ),
    "a day that is changed in legs.csv": (
        (("ZZ1D2,2,", "ZZ1D2,3,"), ("", "")), 6,
        "day/names.csv record 4: ZZ1D2 is 2 ZRH 07:00 LHR 09:50 by line 3 of season, it should be 3 ZRH 07:00 LHR 09:50 as in legs.csv, in the file "
        "that the tables are of",
    ),
    "a leg that is taken out of legs.csv": (
        (("ZZ2,LHR,11:00,ZRH,11:50\n", ""), ("", "")), 6, "day/names.csv record 3: ZZ2 is LHR 11:00 ZRH 11:50 by line 4 of season, it should be in legs.csv",
    ),
}  # fmt: skip


def given(folder: Path, season: str, option: str, windows: Optional[str], optional: Optional[str]) -> Tuple[int, str]:
    """Calls `tables` with a caller's files, and returns its status and what was told."""
    files = {"season": season, "fleets": FLEETS, "windows": windows, "optional": optional}
    for name, data in files.items():
        (folder / name).write_text(data or "", encoding="ascii")
    words = [it for name in ("windows", "optional") if files[name] for it in (f"--{name}", folder / name)]
    status, told = call("tables", folder / "season", folder / "day", option, DATE, "--fleets", folder / "fleets", *words)
    return status, told.replace(f"{folder}/", "")


SEASON = "".join(f"{it}\n" for it in file_of(*TWO))


@pytest.mark.parametrize("name", GIVEN)
def test_given(name: str, scratch: Path) -> None:
    """Tables that options have read, by a caller's files. The plan as filed leaves the file as it is."""
    option, windows, optional, wanted = GIVEN[name]
    status, told = given(scratch, SEASON, option, windows, optional)
    assert not status, told
    assert {it: records(scratch / "day", it) for it in wanted} == wanted
    status, told = call("plan", scratch / "season", scratch / "day", scratch / "new")
    assert not status and (scratch / "new").read_bytes() == (scratch / "season").read_bytes(), told


@pytest.mark.parametrize("windows, line", REFUSED.items(), ids=REFUSED.values())
def test_refused(windows: str, line: str, scratch: Path) -> None:
    """Other times that can't be: one line, and nothing is written."""
    says = "windows has" if line.endswith("at most") else "windows"
    assert given(scratch, SEASON, "--date", windows, None) == (6, f"ssim: {says} {line}\n")
    assert standing(scratch / "day") is None


def test_told(scratch: Path) -> None:
    """What is told of such tables, and of those that stand there already."""
    _, first = given(scratch, SEASON, "--date", "flight,shift,extra\nZZ1,5,0\nZZ3,5,0\n", "flight,skip\n*,0\n")
    told = "4 legs depart on 2026-11-30 in UTC: 4 stations, 1 aircraft types\n"
    both = "windows.csv has 1 records, for calls with --windows\n1 flights of windows aren't among these legs: ZZ3\n"
    assert first.replace("ssim: ", "") == f"{told}{both}optional.csv has 4 records, for calls with --optional\n"
    held = (scratch / "day" / "optional.csv").read_bytes()
    _, then = given(scratch, SEASON, "--date", "flight,shift,extra\n*,5,0\n", None)
    wanted = f"{told}windows.csv has 4 records, for calls with --windows\noptional.csv stays in day as it was\n"
    assert (then.replace("ssim: ", ""), (scratch / "day" / "optional.csv").read_bytes()) == (wanted, held)


def test_too_many_times(scratch: Path) -> None:
    """More pairs of a leg and a fleet at their times than tables may have are refused."""
    files = {
        "costs": "fleet,departure,minute,longest,closed\n" + "".join(f"3{it},1,1,,\n" for it in range(20, 29)),
        "fleets": "fleet,aircraft,turn\n" + "".join(f"3{it},9,30\n" for it in range(20, 29)),
        "windows": "flight,shift,extra\n" + "".join(f"*,{it},0\n" for it in range(1, 9)),
    }
    for name, data in files.items():
        (scratch / name).write_text(data, encoding="ascii")
    (scratch / "season").write_text("".join(f"{it}\n" for it in file_of(*(out(it, kind="320") for it in range(1, 301)))), encoding="ascii")
    words = [it for name in files for it in (f"--{name}", scratch / name)]
    line = "24,300 pairs of a leg and a fleet at their times, and tables have 20,000 at most: ask for fewer legs, or give fewer times or fleets"
    assert call("tables", scratch / "season", scratch / "day", "--date", DATE, *words) == (6, f"ssim: {scratch}/windows: {line}\n")
    assert standing(scratch / "day") is None


@pytest.mark.parametrize("name", CHANGED)
def test_changed(name: str, scratch: Path) -> None:
    """Legs that a planner adds to legs.csv or changes there."""
    changes, status, line = CHANGED[name]
    planned(scratch, file_of(out(), back()), {}, option="--week" if "a day" in name else "--date")
    for table, (old, new) in zip(("legs.csv", "plan.csv"), changes):
        path = scratch / "day" / table
        path.write_text(path.read_text(encoding="ascii").replace(old, new, 1), encoding="ascii")
    (scratch / "new").unlink()
    came, told = call("plan", scratch / "season", scratch / "day", scratch / "new")
    assert (came, told.replace(f"{scratch}/", "")) == (status, f"ssim: {line}\n")
    assert standing(scratch).get("new") == (None if status else (scratch / "season").read_bytes())


TWICE = "1 flights have a date of operation twice, which date variations can't say otherwise: ZZ 1 on 2026-11-30"


@pytest.mark.parametrize("days, words, wanted", [("12", (), [TWICE]), ("2", (), []), ("12", ("--whole-season",), [TWICE.replace("11-30", "10-26")])])
def test_twice_on_a_date(days: str, words: Sequence[str], wanted: List[str], scratch: Path) -> None:
    """At 00:05 a leg arrives on the day before, over the date line. Twelve hours earlier no date variation says when it arrives, so its
    dates of operation are moved: to those of Mondays, where it has them."""
    one = leg("ZZ", 1, "AKL 0005 +1300 HNL 0835 -1000", "320", days, shifts="0A")
    planned(scratch, file_of(one, out(2)), {}, shifts={"ZZ1": -720})
    _, told = call("plan", scratch / "season", scratch / "day", scratch / "new", *words)
    assert [it[6:] for it in told.splitlines() if "twice" in it] == wanted
