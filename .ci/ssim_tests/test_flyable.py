"""A plan is written back where its fleets can fly the new file: small seasons reckoned by hand, the example, and drawn seasons against a
reckoning of their own."""

import random
import shutil
from pathlib import Path
from typing import Dict, List, Mapping, Sequence, Tuple

import pytest
from schedule_lines import carrier, header, leg, numbered, text, trailer
from ssim_tests.test_seasons import DAY, FIRST, TYPES, ZONES, ends_of, itinerary, variation, written, zone
from ssim_tests.reckoning import lacks
from ssim_tests.test_solved import run
from ssim_tests.trying import EXAMPLE, asked, records, standing

pytestmark = pytest.mark.usefixtures("program")
# A Monday.
DATE = "2026-11-30"
OUT, BACK = "ZRH 0800 +0100 LHR 0950 +0000", "LHR 1100 +0000 ZRH 1250 +0100"
GVA_OUT, GVA_BACK = "ZRH 0800 +0100 GVA 0845 +0100", "GVA 1200 +0100 ZRH 1245 +0100"
# By day there and back again, by two types.
DAYS = [leg("ZZ", 1, OUT, "320"), leg("ZZ", 2, BACK, "320"), leg("ZZ", 3, GVA_OUT, "E90"), leg("ZZ", 4, GVA_BACK, "E90")]
# In the evening there, and in the morning back again.
NIGHTS = [
    leg("ZZ", 1, "ZRH 2000 +0100 LHR 2050 +0000", "320"), leg("ZZ", 2, "LHR 0700 +0000 ZRH 0950 +0100", "320"),
    leg("ZZ", 3, "ZRH 2000 +0100 GVA 2045 +0100", "E90"), leg("ZZ", 4, "GVA 0700 +0100 ZRH 0745 +0100", "E90"),
]  # fmt: skip
SWAPPED = {"ZZ1": "E90", "ZZ2": "E90", "ZZ3": "320", "ZZ4": "320"}
WHOLE = "--whole-season"
NOTHING = "nothing is written: --anyway writes it all the same"
# What is told of a plan's changes, which test_plans.py and test_changes.py try.
CHANGES_TOLD = "another aircraft type", "legs change: ", "configurations (bytes 173 to 192), classes (76 to 100) and onward flights (138 to 146) stay as filed"


def lay(folder: Path, legs: Sequence[str], fleets: str, changes: Mapping[str, str], option: str = "--date", date: str = DATE, *more: object) -> None:
    """Makes tables of legs with so many aircraft as `320 1, E90 1`, and changes fleets of flights, on each of their days, in the plan."""
    lines = numbered([header(), carrier("ZZ"), *legs, trailer("ZZ")])
    (folder / "season").write_bytes(text(lines).encode("ascii"))
    rows = "".join(f"{it.replace(' ', ',')},30\n" for it in fleets.split(", "))
    (folder / "fleets").write_text(f"fleet,aircraft,turn\n{rows}", encoding="ascii")
    shutil.rmtree(folder / "day", ignore_errors=True)
    assert asked("tables", folder / "season", folder / "day", option, date, "--fleets", folder / "fleets", *more)[0] == 0
    plan = [it.split(",") for it in records(folder / "day", "plan.csv")]
    own = "".join(f"{name},{changes.get(name.split('D')[0], changes.get(name, kind))}\n" for name, kind in plan)
    (folder / "day" / "plan.csv").write_text(f"flight,fleet\n{own}", encoding="ascii")


def write(folder: Path, *words: str) -> Tuple[int, List[str]]:
    """Writes the plan back, and returns the status and what is told beyond its changes. What is refused isn't written."""
    before = standing(folder)
    status, told = asked("plan", folder / "season", folder / "day", folder / "new", *words)
    assert status == 0 or standing(folder) == before
    return status, [it[6:] for it in told.splitlines() if not any(own in it for own in CHANGES_TOLD)]


def test_a_day_that_can_be_flown(scratch: Path) -> None:
    """Both types change their trips for a day, and are back at night."""
    lay(scratch, DAYS, "320 1, E90 2", SWAPPED)
    told = "aircraft in the 7 days from 2026-11-27, as filed, with the plan and in fleets.csv: 320 1 1 1, E90 1 1 2"
    assert write(scratch) == (0, [told, *borders("11-27", "320 as many at each station; E90 as many at each station", "12-04")])
    assert (scratch / "new").exists()


def borders(first: str, what: str, second: str) -> List[str]:
    """Returns what is told of two borders that are alike."""
    return [f"aircraft at the border of 2026-{it}, and wanted behind it: {what}" for it in (first, second)]


def test_too_many(scratch: Path) -> None:
    """The 320 flies both trips of a Monday, which are at one time."""
    lay(scratch, DAYS, "320 1, E90 1", {"ZZ3": "320", "ZZ4": "320"})
    status, told = write(scratch)
    assert (status, told[0]) == (9, "aircraft in the 7 days from 2026-11-27, as filed, with the plan and in fleets.csv: 320 1 2 1, E90 1 1 1")
    place = "at ZRH on 2026-11-30 07:00 no aircraft is there for ZZ3; ZZ2 is ready there at 2026-11-29 12:20, and ZZ4 is ready there at 2026-11-30 12:15"
    assert told[-2:] == [f"320 would need 2 aircraft in the 7 days from 2026-11-27, and has 1: {place}", NOTHING]
    assert write(scratch, "--anyway") == (0, told[:-1])
    assert (scratch / "new").exists()


def test_not_back(scratch: Path) -> None:
    """The types change their ways out alone, so each is missing for a way back."""
    lay(scratch, DAYS, "320 1, E90 1", {"ZZ1": "E90", "ZZ3": "320"})
    status, told = write(scratch)
    sides = "ZZ1 is ready there at 2026-11-29 10:20, and ZZ1 is ready there at 2026-12-01 10:20"
    place = f"at LHR on 2026-11-30 11:00 no aircraft is there for ZZ2; {sides}"
    wanted = f"320 would not come back in the 7 days from 2026-11-27, arrivals less departures GVA +1, LHR -1: {place}"
    assert (status, told[0][-20:], told[-3]) == (9, "320 1 - 1, E90 1 - 1", wanted)


def test_not_back_with_aircraft_to_spare(scratch: Path) -> None:
    """With any number of aircraft the week can be flown once, and not again."""
    lay(scratch, DAYS, "320 9, E90 9", {"ZZ1": "E90", "ZZ3": "320"})
    status, told = write(scratch)
    assert (status, told[-3].partition(": ")[2][:75]) == (9, "at LHR on 2026-12-07 11:00 no aircraft is there for ZZ2; ZZ1 is ready there")


# On one date alone there and back again, so that no week repeats: the 320 is ready at LHR at 10:20 in UTC.
MONDAY = ("30NOV26", "30NOV26")


@pytest.mark.parametrize("minute, extra, status", [("1020", 0, 0), ("1019", 0, 9), ("1025", 5, 0), ("1024", 5, 9)])
def test_the_minute_of_readiness(minute: str, extra: int, status: int, scratch: Path) -> None:
    """An aircraft may depart in the minute in which it is ready, by its turn and the extra minutes of the station, and not before."""
    (scratch / "stations").write_text(f"code,extra,maintenance\nZRH,0,no\nLHR,{extra},no\n", encoding="ascii")
    legs = [leg("ZZ", 1, OUT, "E90", period=MONDAY), leg("ZZ", 2, f"LHR {minute} +0000 ZRH 1250 +0100", "E90", period=MONDAY)]
    lay(scratch, legs, "E90 2, 320 1", {"ZZ1": "320", "ZZ2": "320"}, "--date", DATE, "--stations", scratch / "stations")
    came, told = write(scratch)
    assert came == status and told[1] == "the 7 days from 2026-11-27 don't repeat as filed: they are judged by those beside them alone"
    place = f"at LHR on 2026-11-30 10:{minute[2:]} no aircraft is there for ZZ2; ZZ1 is ready there at 2026-11-30 10:{int(minute[2:]) + 1}"
    line = f"320 would need 2 aircraft from 2026-11-20 to 2026-12-10, as filed 0, and has 1: {place}"
    assert [it for it in told if "would" in it] == ([line] if status else [])


def test_in_the_air(scratch: Path) -> None:
    """An aircraft that is in the air as the weeks that are walked begin is one of the fleet's, though no flight wants it later."""
    night = leg("ZZ", 8, "ZRH 0030 +0100 LHR 0120 +0000", "320", period=("20NOV26", "20NOV26"))
    lay(scratch, [night, *(f"{it[:14]}30NOV2630NOV26{it[28:]}" for it in DAYS[2:])], "E90 1, 320 1", {"ZZ3": "320", "ZZ4": "320"})
    status, told = write(scratch)
    place = "at ZRH on 2026-11-30 07:00 no aircraft is there for ZZ3; ZZ4 is ready there at 2026-11-30 12:15"
    wanted = [f"320 would need 2 aircraft from 2026-11-20 to 2026-12-10, as filed 1, and has 1: {place}"]
    assert (status, [it for it in told if "would" in it]) == (9, wanted)


# To GVA and back, then there on one day and back after some weeks, by an E90 as filed.
AWAY = [
    leg("ZZ", 3, GVA_OUT, "E90", period=("29NOV26", "29NOV26")), leg("ZZ", 4, GVA_BACK, "E90", period=("29NOV26", "29NOV26")),
    leg("ZZ", 1, OUT, "E90", period=MONDAY), leg("ZZ", 2, BACK, "E90", period=("11JAN27", "11JAN27")),
]  # fmt: skip


def test_behind_the_weeks(scratch: Path) -> None:
    """A type that the plan leaves elsewhere than as filed lacks where the file wants it, some weeks later."""
    lay(scratch, AWAY, "E90 1, 320 1", {"ZZ1": "320"})
    status, told = write(scratch)
    place = "at LHR on 2027-01-11 11:00 no aircraft is there for ZZ2, and none comes there"
    wanted = [f"E90 would need 2 aircraft from 2026-11-20 to 2027-01-19, as filed 1, and has 1: {place}"]
    assert (status, [it for it in told if "would" in it]) == (9, wanted)
    lay(scratch, AWAY, "E90 2, 320 1", {"ZZ1": "320"})
    assert write(scratch)[0] == 0


@pytest.mark.parametrize("lhr, gva, status", [(40, 165, 0), (41, 165, 9), (40, 166, 9)])
def test_extra_minutes(lhr: int, gva: int, status: int, scratch: Path) -> None:
    """Turns are longer by the extra minutes of stations, also of GVA, which the tables of the Monday haven't: 70 minutes pass at LHR, and
    195 there on Tuesdays."""
    legs = [leg("ZZ", 1, OUT, "E90", "1"), leg("ZZ", 2, BACK, "E90", "1"), leg("ZZ", 3, GVA_OUT, "320", "2"), leg("ZZ", 4, GVA_BACK, "320", "2")]
    (scratch / "stations").write_text(f"code,extra,maintenance\nZRH,0,no\nLHR,{lhr},no\nGVA,{gva},no\n", encoding="ascii")
    lay(scratch, legs, "E90 2, 320 1", {"ZZ1": "320", "ZZ2": "320"}, "--date", DATE, "--stations", scratch / "stations")
    assert f"extra,GVA {gva}" in records(scratch / "day", "made.csv")
    assert write(scratch)[0] == status


def test_border(scratch: Path) -> None:
    """A week in which the types change their nights can be flown, and so can the weeks beside it: but not one behind the other."""
    lay(scratch, NIGHTS, "320 1, E90 1", SWAPPED, "--week")
    status, told = write(scratch)
    assert told[0].endswith(": 320 1 1 1, E90 1 1 1")
    first = "aircraft at the border of 2026-11-30, and wanted behind it: 320 GVA 0 1, LHR 1 0; E90 GVA 1 0, LHR 0 1"
    assert told[1:3] == [first, "aircraft at the border of 2026-12-07, and wanted behind it: 320 GVA 1 0, LHR 0 1; E90 GVA 0 1, LHR 1 0"]
    place = "at GVA on 2026-11-30 06:00 no aircraft is there for ZZ4; ZZ3 is ready there at 2026-11-30 20:15"
    assert (status, told[3]) == (9, f"320 would need 2 aircraft from 2026-11-23 to 2026-12-13, as filed 1, and has 1: {place}")
    assert write(scratch, WHOLE)[0] == 0
    lay(scratch, NIGHTS, "320 2, E90 2", SWAPPED, "--week")
    assert write(scratch)[0] == 0


GIVEN = ("--stations", EXAMPLE / "stations.csv", "--costs", EXAMPLE / "prices.csv")


def solved(folder: Path, option: str, date: str) -> None:
    """Makes the tables of the example, and has their cheapest plan found."""
    assert asked("tables", EXAMPLE / "season.ssim", folder / "day", option, date, *GIVEN)[0] == 0
    assert run("solve", folder / "day", "--period", 7 if option == "--week" else 1)[0] == 0


def test_example_of_a_week(scratch: Path) -> None:
    """The plan of a week can be flown through the season, and the new file's week needs no more aircraft than it says."""
    solved(scratch, "--week", "2026-12-07")
    status, told = asked("plan", EXAMPLE / "season.ssim", scratch / "day", scratch / "new", WHOLE)
    assert (status, "lack" in told) == (0, False)
    again = asked("tables", scratch / "new", scratch / "again", "--week", "2026-12-07", *GIVEN)[1]
    assert again.splitlines()[-1] == "ssim: aircraft that the plan as filed uses: 223 3, 320 5, 333 2, E90 2"
    assert run("judge", scratch / "again", "--period", 7)[1][0] == "legal: cost 3034010"


def test_example_of_a_date(scratch: Path) -> None:
    """The plan of a date needs two aircraft more, and isn't written."""
    solved(scratch, "--date", DATE)
    status, told = asked("plan", EXAMPLE / "season.ssim", scratch / "day", scratch / "new")
    lines = told.splitlines()
    assert "aircraft in the 7 days from 2026-11-27, as filed, with the plan and in fleets.csv: 223 3 4 3, 320 4 5 4, 333 2 2 2, E90 2 2 2" in told
    assert (status, lines[-1]) == (9, f"ssim: {NOTHING}")
    assert [it.split(":")[1] for it in lines[-3:-1]] == [
        f" {fleet} would need {need} aircraft in the 7 days from 2026-11-27, and has {need - 1}" for fleet, need in (("223", 4), ("320", 5))
    ]
    assert not (scratch / "new").exists()


def test_days(scratch: Path) -> None:
    """The plan of a Monday is laid on days of operation: a leg that departs on the Monday in UTC, and operates on Sundays, on days before."""
    far = [leg("ZZ", 8, "YYT 2330 -0330 ZRH 1030 +0100", "E90", shifts="01"), leg("ZZ", 9, "ZRH 1300 +0100 YYT 1530 -0330", "E90")]
    lay(scratch, [*DAYS, *far], "320 9, E90 9", {"ZZ8": "320", "ZZ9": "320"})
    assert write(scratch, "--days", "12345")[0] == 0
    lines = (scratch / "new").read_bytes().decode("ascii").splitlines()
    own = [(it[5:9], it[14:35].rstrip(), it[72:75]) for it in lines if it[0] == "3" and it[5:9] in ("0008", "0009")]
    assert own == [
        ("0008", "25OCT2627MAR271234  7", "320"), ("0008", "25OCT2627MAR27    56", "E90"),
        ("0009", "25OCT2627MAR2712345", "320"), ("0009", "25OCT2627MAR27     67", "E90"),
    ]  # fmt: skip
    lay(scratch, DAYS, "320 1, E90 2", SWAPPED, "--week")
    status, told = asked("plan", scratch / "season", scratch / "day", scratch / "new", "--days", "12345")
    assert (status, told) == (2, "ssim: --days 12345 is for a plan of one date, and this one is of a week: --whole-season lays that on its days\n")
    for words, line in (
        (["--days", "54321"], "--days 54321: days of operation as 12345 are wanted, 1 for Monday to 7 for Sunday"),
        (["--days=1", WHOLE], "--whole-season and --days stand both"),
    ):  # fmt: skip
        status, told = asked("plan", scratch / "season", scratch / "day", scratch / "new", *words)
        assert (status, told.splitlines()[0]) == (2, f"ssim: {line}")


# A season with a change of frequency in its middle: from Thursday 17 December on the trip to LHR is flown by day, from a minute on.
CHANGE = ("25OCT26", "16DEC26"), ("25OCT26", "17DEC26"), ("18DEC26", "27MAR27")


def changing(minute: str) -> List[str]:
    """Returns the legs of such a season."""
    return [
        leg("ZZ", 1, "ZRH 2000 +0100 LHR 2050 +0000", "320", period=CHANGE[0]), leg("ZZ", 2, "LHR 0700 +0000 ZRH 0950 +0100", "320", period=CHANGE[1]),
        leg("ZZ", 5, f"ZRH {minute} +0100 LHR 1150 +0000", "320", period=CHANGE[2]), leg("ZZ", 6, "LHR 1300 +0000 ZRH 1550 +0100", "320", period=CHANGE[2]),
        *NIGHTS[2:],
    ]  # fmt: skip


def test_change_of_frequency(scratch: Path) -> None:
    """Before the change the types change their trips, behind it the 320 flies to GVA at night and to LHR by day. The week of the change
    doesn't repeat, as filed neither, and can be flown."""
    lay(scratch, changing("1000"), "320 1, E90 1", SWAPPED, "--week")
    status, told = write(scratch, WHOLE)
    assert (status, told[2:4]) == (0, [
        "aircraft in the 7 days from 2026-10-26 and 6 weeks like these, as filed, with the plan and in fleets.csv: 320 1 1 1, E90 1 1 1",
        "aircraft in the 7 days from 2026-12-14, as filed, with the plan and in fleets.csv: 320 - 1 1, E90 1 - 1",
    ])
    assert told[4] == "the 7 days from 2026-12-14 don't repeat as filed: they are judged by those beside them alone"
    lay(scratch, changing("0705"), "320 1, E90 1", SWAPPED, "--week")
    status, told = write(scratch, WHOLE)
    place = "at ZRH on 2026-12-21 06:05 no aircraft is there for ZZ5; ZZ6 is ready there at 2026-12-20 15:20, and ZZ4 is ready there at 2026-12-21 07:15"
    assert (status, told[-2]) == (9, f"320 would need 2 aircraft in the 7 days from 2026-12-21 and 12 weeks like these, and has 1: {place}")


# Drawn seasons: how many are to be flyable as filed, of each option.
SEASONS = 200


def way_back(chance: random.Random, line: str, number: int, is_local: bool) -> str:
    """Returns a leg that flies back on the same dates of operation, or nothing where no date variation says when."""
    start, end = ends_of(line, 0, is_local)
    departs = end + chance.randint(30, 700)
    origin, target = line[54:57], line[36:39]
    ends = [at + is_local * zone(ZONES[it]) for at, it in ((departs, origin), (departs + end - start, target))]
    if not -DAY <= min(ends) <= max(ends) < 8 * DAY:
        return ""
    way = f"{origin} {written(ends[0])} {ZONES[origin]} {target} {written(ends[1])} {ZONES[target]}"
    shifts = "".join(variation(it // DAY) for it in ends)
    return leg("ZZ", number, way, line[72:75], line[28:35], (line[14:21], line[21:28]), shifts=shifts, b36=line[35])


def there_and_back(chance: random.Random) -> List[str]:
    """Returns the lines of a season as test_seasons.py draws them, whose legs each have one that flies back, so that their aircraft come
    home."""
    is_local, legs, number = chance.random() < 0.7, [], 100
    for flight in range(1, chance.randint(3, 6)):
        days = "".join(it for it in "1234567" if chance.random() < 0.8) or "1"
        for line in (it for it in itinerary(chance, flight, 1, days, is_local) if it[0] == "3"):
            number += 1
            there, back = f"{line[:5]}{number:04}0101{line[13:]}", way_back(chance, line, number + 100, is_local)
            legs += [there, back] if back else []
    return numbered([header(), carrier("ZZ", "L" if is_local else "U"), *legs, trailer("ZZ")])


def flyable(chance: random.Random, folder: Path, option: str) -> Tuple[List[str], Dict[str, int], int]:
    """Draws seasons until the plan as filed of a date or a week can be flown, and has a cheapest plan of it found by drawn prices, with as
    many aircraft as the plan as filed uses or one more. Returns the lines, the aircraft by type, and the first day."""
    while True:
        lines, first = there_and_back(chance), FIRST.toordinal() + chance.randint(8, 90)
        (folder / "season").write_bytes(text(lines).encode("ascii"))
        prices = [f"{it},{chance.randint(0, 900)},{chance.randint(1, 9)},,\n" for it in TYPES]
        (folder / "prices").write_text("fleet,departure,minute,longest,closed\n" + "".join(prices), encoding="ascii")
        date = FIRST.fromordinal(first).isoformat()
        shutil.rmtree(folder / "day", ignore_errors=True)
        status, told = asked("tables", folder / "season", folder / "day", option, date, "--costs", folder / "prices")
        if status or "the plan as filed uses: " not in told or len(records(folder / "day", "fleets.csv")) < 2:
            continue
        rows = [it.split(",") for it in records(folder / "day", "fleets.csv")]
        fleets = {kind: int(count) + (chance.random() < 0.2) for kind, count, _ in rows}
        (folder / "day" / "fleets.csv").write_text("fleet,aircraft,turn\n" + "".join(f"{it},{count},30\n" for it, count in fleets.items()))
        assert run("solve", folder / "day", "--period", 7 if option == "--week" else 1)[0] == 0
        return lines, fleets, first


@pytest.mark.parametrize("option, others", [("--week", ([], [WHOLE])), ("--date", ([], [WHOLE], ["--days=12345"], ["--days=67"]))])
@pytest.mark.parametrize("draw", range(SEASONS))
def test_season(draw: int, option: str, others: Sequence[List[str]], scratch: Path) -> None:
    """A cheapest plan is written where a reckoning apart from the tool says that it can be flown, and refused where that says it can't."""
    chance = random.Random(draw)
    lines, fleets, first = flyable(chance, scratch, option)
    words = others[draw % len(others)]
    status, told = asked("plan", scratch / "season", scratch / "day", scratch / "new", *words)
    assert status in (0, 9) and (scratch / "new").exists() == (status == 0), told
    assert asked("plan", scratch / "season", scratch / "day", scratch / "new", "--anyway", *words)[0] == 0
    new = (scratch / "new").read_bytes().decode("ascii").splitlines()
    wanted = lacks(lines, new, fleets, first if option == "--week" else first - 3, bool(words))
    assert {it for it in fleets if f"ssim: {it} would " in told} == wanted, told
    assert status == (9 if wanted else 0)
    if not wanted:
        again = asked("tables", scratch / "new", scratch / "again", option, FIRST.fromordinal(first).isoformat())[1]
        used = again.partition("uses: ")[2].splitlines()[0].split(", ")
        assert all(int(it.split()[1]) <= fleets[it.split()[0]] for it in used), (used, fleets)
