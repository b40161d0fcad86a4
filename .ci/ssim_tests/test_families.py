"""Families of aircraft types, one of several airlines, and onward flights."""

import shutil
from pathlib import Path
from typing import Dict, List, Tuple

import pytest
from schedule_lines import ZEROS, carrier, header, leg, numbered, segment, text, trailer
from ssim_tests.test_features import back, out
from ssim_tests.test_plans import DATE, file_of, plan_text
from ssim_tests.trying import asked, records, standing

pytestmark = pytest.mark.usefixtures("program")
MAP = ("--map", "319=320")
# There and back by three types.
LEGS = [
    out(1, kind="319"), back(2, kind="319"), out(3, "ZRH 0900 +0100 LHR 1050 +0000"), back(4, "LHR 1200 +0000 ZRH 1350 +0100"),
    out(5, "ZRH 1500 +0100 LHR 1650 +0000", kind="E90"), back(6, "LHR 1800 +0000 ZRH 1950 +0100", kind="E90"),
]  # fmt: skip


def made(folder: Path, lines: List[str], *words: object, option: str = "--date") -> Tuple[int, str]:
    """Makes tables of lines."""
    (folder / "season").write_bytes(text(lines).encode("ascii"))
    shutil.rmtree(folder / "day", ignore_errors=True)
    status, told = asked("tables", folder / "season", folder / "day", option, DATE, *words)
    return status, told.replace(f"{folder}/", "")


def plan(folder: Path, changes: Dict[str, str], *words: str) -> Tuple[int, str]:
    """Changes fleets of a plan, and writes it back."""
    rows = {**dict(it.split(",") for it in records(folder / "day", "plan.csv")), **changes}
    (folder / "day" / "plan.csv").write_text(plan_text(rows), encoding="ascii")
    return asked("plan", folder / "season", folder / "day", folder / "new", *words)


def types_of(folder: Path) -> Dict[int, List[str]]:
    """Returns the types of each flight in the new file."""
    found: Dict[int, List[str]] = {}
    for line in (folder / "new").read_bytes().decode("ascii").splitlines():
        if line[0] == "3":
            found.setdefault(int(line[5:9]), []).append(line[72:75])
    return found


def test_family(scratch: Path) -> None:
    """The 319 and the 320 are one fleet. What comes to it by a change is a 320, what stays in it keeps its code."""
    assert made(scratch, file_of(*LEGS), *MAP)[0] == 0
    assert records(scratch / "day", "fleets.csv") == ["320,2,30", "E90,1,30"]
    assert records(scratch / "day", "plan.csv")[:2] == ["ZZ1,320", "ZZ3,320"]
    status, told = plan(scratch, {"ZZ5": "320", "ZZ6": "320"}, "--whole-season")
    assert (status, types_of(scratch)) == (0, {1: ["319"], 2: ["319"], 3: ["320"], 4: ["320"], 5: ["320", "E90"], 6: ["320", "E90"]})
    assert "ssim: 2 legs change: E90 to 320 ZZ5 ZZ6\n" in told
    assert "ssim: codes of 320 in the new file: 319 in 2 records, 320 in 4 records\n" in told
    assert ": 320 2 2 2, E90 1 1 1\n" in told
    # The 320 flies its own trip and, on Mondays, the one that was the E90's behind it.
    assert "ssim: by its codes, each alone, 320 needs 319 1, 320 1 in the 7 days from 2026-10-30 and 20 weeks like these\n" in told


def test_out_of_a_family(scratch: Path) -> None:
    """A leg that leaves a family has its new type."""
    made(scratch, file_of(*LEGS), *MAP)
    assert plan(scratch, {"ZZ1": "E90", "ZZ2": "E90"}, "--whole-season", "--anyway")[0] == 0
    assert types_of(scratch)[1] == ["E90", "319"]


def test_family_of_another_code(scratch: Path) -> None:
    """Several types may be one fleet, by a code that no record has."""
    assert made(scratch, file_of(*LEGS), *MAP[:1], "319=32S", "--map=320=32S")[0] == 0
    assert records(scratch / "day", "fleets.csv") == ["32S,2,30", "E90,1,30"]


@pytest.mark.parametrize("words, status, line", [
    (("--map", "319:320"), 2, "--map 319:320: two aircraft types as 319=320 are wanted"),
    (("--map", "319=319"), 2, "--map 319=319: two aircraft types as 319=320 are wanted"),
    (("--map", "319=320", "--map", "319=E90"), 2, "--map 319=E90: 319 is 320 already"),
    (("--map", "319=320", "--map", "320=E90"), 2, "--map 320=E90: other types are 320, so that can't be E90"),
    (("--map", "318=320"), 6, "season has no record of the aircraft type 318: it has 319, 320, E90"),
    (("--types", "32O"), 6, "season has no record of the aircraft type 32O: it has 319, 320, E90"),
    (("--airline", "Z"), 2, "--airline Z: two or three letters A to Z and digits are wanted"),
    (("--airline", "YY"), 6, "season has no airline YY: it has ZZ"),
])  # fmt: skip
def test_refused(words: Tuple[str, ...], status: int, line: str, scratch: Path) -> None:
    """Words that are no families, and types and airlines that the file doesn't have."""
    came = made(scratch, file_of(*LEGS), *words)
    assert (came[0], came[1].splitlines()[0], standing(scratch / "day")) == (status, f"ssim: {line}", None)


@pytest.mark.parametrize("date, is_there", [("2026-10-24", False), ("2027-03-28", False), ("2027-03-27", True), ("2026-10-25", True)])
def test_dates_of_the_season(date: str, is_there: bool, scratch: Path) -> None:
    """A date outside of the season is refused with what there is."""
    (scratch / "season").write_bytes(text(file_of(*LEGS)).encode("ascii"))
    status, told = asked("tables", scratch / "season", scratch / "day", "--date", date)
    assert (status == 0) == is_there == (scratch / "day").exists()
    assert is_there or told == f"ssim: {scratch}/season has no leg on {date}: it is valid from 2026-10-25 to 2027-03-27\n"


def test_fleet_that_is_not_there(scratch: Path) -> None:
    """A plan with a fleet that fleets.csv doesn't have is refused with those that it has, and nothing is written."""
    made(scratch, file_of(*LEGS))
    line = f"ssim: {scratch}/day/plan.csv: the fleet of ZZ1 is 32O, it should be one of {scratch}/day/fleets.csv: 319, 320, E90\n"
    assert plan(scratch, {"ZZ1": "32O"}, "--anyway") == (6, line)
    assert not (scratch / "new").exists()


def two_airlines(are_anew: bool) -> List[str]:
    """Returns the lines of a file of two airlines, in blocks of five. The second one's serial numbers begin anew, or go on."""
    first = [header(), *[ZEROS] * 4, carrier("YY"), *[ZEROS] * 4, leg("YY", 1, "ZRH 0800 +0100 LHR 0950 +0000", "319")]
    first += [leg("YY", 2, "LHR 1100 +0000 ZRH 1250 +0100", "319"), *[ZEROS] * 3, trailer("YY", "C"), *[ZEROS] * 4]
    second = [carrier("ZZ"), *[ZEROS] * 4, *LEGS[:4], segment(LEGS[3], "010", "XY 1"), trailer("ZZ"), *[ZEROS] * 4]
    return [*numbered(first), *numbered([header(), *second])[1:]] if are_anew else numbered([*first, *second])


def test_two_airlines(scratch: Path) -> None:
    """One of two airlines is taken, and the other stays as it is, byte for byte."""
    lines = two_airlines(True)
    status, told = made(scratch, lines)
    should = "it should be YY as in line 6, where --airline doesn't say which"
    assert (status, told) == (6, f'ssim: season line 21: airline is "ZZ " (bytes 3 to 5), {should}\n')
    status, told = made(scratch, lines, "--airline", "YY")
    assert (status, records(scratch / "day", "plan.csv")) == (0, ["YY1,319", "YY2,319"])
    assert "ssim: left out: 4 of another airline of the file (--airline)\n" in told
    (scratch / "day" / "fleets.csv").write_text("fleet,aircraft,turn\n319,1,30\n320,1,30\n", encoding="ascii")
    status, told = plan(scratch, {"YY1": "320", "YY2": "320"})
    new = (scratch / "new").read_bytes().decode("ascii").splitlines()
    # The 320 of the other airline isn't counted.
    assert (status, ": 319 1 1 1, 320 0 1 1\n" in told) == (0, True)
    assert new[-15:] == lines[-15:] and [it[72:75] for it in new if it[:5] == "3 YY "] == ["319", "320", "319"] * 2
    assert new[:6] == lines[:6] and len(new) % 5 == 0


def test_second_airline(scratch: Path) -> None:
    """Where the second airline is taken the first stays as it is; where serial numbers go on they are counted, and nothing else changes."""
    for are_anew in (True, False):
        lines = two_airlines(are_anew)
        assert made(scratch, lines, "--airline", "ZZ", *MAP)[0] == 0
        (scratch / "day" / "fleets.csv").write_text("fleet,aircraft,turn\n320,2,30\nE90,1,30\n", encoding="ascii")
        assert plan(scratch, {"ZZ1": "E90", "ZZ2": "E90"}, "--whole-season", "--anyway")[0] == 0
        new = (scratch / "new").read_bytes().decode("ascii").splitlines()
        assert new[:20] == lines[:20] and [it[72:75] for it in new if it[:9] == "3 ZZ 0001"] == ["E90", "319"]
    assert made(scratch, two_airlines(False), "--airline", "YY")[0] == 0
    (scratch / "day" / "fleets.csv").write_text("fleet,aircraft,turn\n319,1,30\n320,1,30\n", encoding="ascii")
    assert plan(scratch, {"YY1": "320", "YY2": "320"})[0] == 0
    new = (scratch / "new").read_bytes().decode("ascii").splitlines()
    assert [it[:187] for it in new[-15:]] == [it[:187] for it in two_airlines(False)[-15:]]
    assert new == numbered([it if it == ZEROS else f"{it[:194]}000000" for it in new])


def test_airline_without_blocks(scratch: Path) -> None:
    """No lines of zeros come into the part of another airline, whose trailer stands where a block would begin."""
    first = [header(), carrier("YY"), leg("YY", 1, "ZRH 0800 +0100 LHR 0950 +0000", "319"), leg("YY", 2, "LHR 1100 +0000 ZRH 1250 +0100", "319")]
    lines = [*numbered([*first, trailer("YY", "C")]), *numbered([header(), carrier("ZZ"), *LEGS[:4], trailer("ZZ")])[1:]]
    assert len(lines) % 5 == 1
    made(scratch, lines, "--airline", "YY")
    (scratch / "day" / "fleets.csv").write_text("fleet,aircraft,turn\n319,1,30\n320,1,30\n", encoding="ascii")
    assert plan(scratch, {"YY1": "320", "YY2": "320"})[0] == 0
    assert (scratch / "new").read_bytes().decode("ascii").splitlines()[-6:] == lines[-6:]
    assert ZEROS not in (scratch / "new").read_bytes().decode("ascii").splitlines()


# Each with its onward flight: airline, number, layover and suffix.
ON = "ZZ    3  "
ONWARD = {
    "of that day": ([out(1, b138=ON), back(3, "LHR 1100 +0000 ZRH 1250 +0100")], ["ZZ1,ZZ3,40"]),
    "of another day": ([out(1, b138="ZZ    31 "), back(3)], []),
    "with a layover of 0, and a suffix": ([out(1, b138="ZZ 00030D"), back(3, b2="D")], ["ZZ1,ZZ3D,40"]),
    "of another suffix": ([out(1, b138="ZZ    3 D"), back(3)], []),
    "before it arrives": ([out(1, b138=ON), back(3, "LHR 0900 +0000 ZRH 1150 +0100")], []),
    "from another station": ([out(1, b138=ON), out(3, "ZRH 1300 +0100 LHR 1450 +0000")], []),
    "that is the next leg of the flight": (
        [out(7, "ZRH 0700 +0100 GVA 0745 +0100", b138="ZZ    7  "), out(7, "GVA 0830 +0100 LIS 1010 +0000", sequence=2)], ["ZZ7A,ZZ7B,40"],
    ),
    "on the next day in UTC alone": (
        # It arrives on Monday at 01:30 in UTC, and on Sunday in local time, on which the other one departs at 04:00 in UTC.
        [out(1, "ZRH 1800 +0100 YYT 2200 -0330", days="7", b138=ON), back(3, "YYT 2300 -0330 ZRH 0900 +0100", days="7", shifts="01")], ["ZZ1D7,ZZ3D1,40"],
    ),
    "over midnight": ([out(1, "ZRH 2000 +0100 LHR 2250 +0000", days="1", b138=ON), back(3, "LHR 0100 +0000 ZRH 0350 +0100", days="2")], []),
}  # fmt: skip


@pytest.mark.parametrize("name", ONWARD)
def test_onward(name: str, scratch: Path) -> None:
    """An onward flight of the day of arrival is a through pair."""
    legs, wanted = ONWARD[name]
    option = "--week" if "UTC" in name or "midnight" in name else "--date"
    assert made(scratch, file_of(*legs), "--onward-value", 40, option=option)[0] == 0
    assert records(scratch / "day", "throughs.csv") == wanted
    made(scratch, file_of(*legs), option=option)
    assert all(it.endswith(",0") and it.startswith("ZZ7A") for it in records(scratch / "day", "throughs.csv"))


def test_onward_told(scratch: Path) -> None:
    """How many onward flights are pairs is told, and one that isn't of its form is refused."""
    lines = file_of(out(1, b138=ON), back(3), out(4, b138="ZZ    31 "), out(5, b138="XX 0009  "))
    told = made(scratch, lines, "--onward-value", 40)[1]
    line = "onward flights: 1 are through pairs, 1 are of another day (byte 145), 1 name a flight that isn't among these legs then"
    assert f"ssim: {line}\n" in told
    status, told = made(scratch, file_of(out(1, b138="ZZ 3     ")), "--onward-value", 40)
    should = "an airline, a flight number, the days of its layover and a suffix, or blank"
    assert (status, told) == (6, f'ssim: season line 3: onward flight is "ZZ 3     " (bytes 138 to 146), it should be {should}\n')
