"""Records of several scenarios: lists in braces, ranges, and their products; and the changes that a fleet's turn and a block time have."""

from pathlib import Path
from typing import Dict, List, Tuple

import pytest
from scenario_tests.laid import lay, unread
from scenario_tests.rows import TABLES
from steps.laying import changed
from steps.listing import Scenario, scenarios_of

HEADER = "scenario,words,folder,changes"


def listed(folder: Path, *records: str, header: str = HEADER) -> Dict[str, Scenario]:
    """Returns the scenarios of records."""
    lay(folder, {"scenarios.csv": "\n".join([header, *records, ""])})
    return scenarios_of(str(folder / "scenarios.csv"))


# A record, and the scenarios that it is, each with its words and its changes.
PRODUCTS: Dict[str, Dict[str, Tuple[str, str]]] = {
    "a,,,aircraft F150 -1": {"a": ("", "aircraft F150 -1")},
    "a,,,aircraft F150 -3..3": {f"a_{it}": ("", f"aircraft F150 {it}") for it in ("-3", "-2", "-1", "+0", "+1", "+2", "+3")},
    "a,,,aircraft F150 +1..3": {f"a_{it}": ("", f"aircraft F150 {it}") for it in ("+1", "+2", "+3")},
    "a,,,aircraft F150 4..8/2": {f"a_{it}": ("", f"aircraft F150 {it}") for it in ("4", "6", "8")},
    "a,,,cost F100 *1.01..1.05/0.01": {f"a_{it}": ("", f"cost F100 *{it}") for it in ("1.01", "1.02", "1.03", "1.04", "1.05")},
    "a,,,cost F100 *0.9..1.1/0.1": {f"a_{it}": ("", f"cost F100 *{it}") for it in ("0.9", "1", "1.1")},
    '"a","--days {3,4}",,"aircraft {F70,F100} -1"': {
        f"a_{days}_{fleet}": (f"--days {days}", f"aircraft {fleet} -1") for days in ("3", "4") for fleet in ("F70", "F100")
    },
    "a,--days {3..5},,": {f"a_{it}": (f"--days {it}", "") for it in ("3", "4", "5")},
    '"a",,,"only-day {1..2,7}; {,aircraft F70 -1..+0}"': {
        **{f"a_{day}": ("", f"only-day {day}") for day in ("1", "2", "7")},
        **{f"a_{day}_aircraft-F70-{it}": ("", f"only-day {day}; aircraft F70 {it}") for day in ("1", "2", "7") for it in ("-1", "+0")},
    },
    "a,,,window X2 -10..10/10 5": {f"a_{it}": ("", f"window X2 {it} 5") for it in ("-10", "0", "10")},
    '"a",,,"turn F1 {40,+5}; block AAA BBB -5..5/5"': {
        f"a_{turn}_{block}": ("", f"turn F1 {turn}; block AAA BBB {block}") for turn in ("40", "+5") for block in ("-5", "+0", "+5")
    },
}


@pytest.mark.parametrize("record", PRODUCTS)
def test_product(record: str, scratch: Path) -> None:
    """A record is as many scenarios as its lists and ranges have choices, each named by what was chosen."""
    found = listed(scratch, record)
    told = {name: (" ".join(it.told.words), "; ".join(it.changes)) for name, it in found.items()}
    assert told == PRODUCTS[record]


def test_folders(scratch: Path) -> None:
    """A list of folders has a scenario for each."""
    for name in ("sat", "sun"):
        lay(scratch / name, {"legs.csv": ""})
    found = listed(scratch, '"a",,"{,sat,sun}",')
    assert {name: it.folder for name, it in found.items()} == {"a": None, "a_sat": str(scratch / "sat"), "a_sun": str(scratch / "sun")}


def test_stable_names(scratch: Path) -> None:
    """The name of a scenario doesn't depend on what else a list or a range has, nor on its order."""
    few = listed(scratch, '"a",,,"aircraft {F70,F100} -1..1; cost F70 *1.1..1.2/0.1"')
    more = listed(scratch, '"a",,,"aircraft {F100,F150,F70} -2..2; cost F70 *1.05..1.3/0.05"')
    assert len(few) == 12 and len(more) == 90
    assert all(more[name].changes == it.changes for name, it in few.items())


def test_bases_of_choices(scratch: Path) -> None:
    """A base may be named by what is chosen in its record."""
    found = listed(scratch, "day,,,only-day 1..2,day_{1}", '"less",,,"only-day 1..2; aircraft {F70,F100} -1",day_{1}', header=f"{HEADER},base")
    bases = {"day_1": "day_1", "day_2": "day_2", **{f"less_{day}_{fleet}": f"day_{day}" for day in (1, 2) for fleet in ("F70", "F100")}}
    assert {name: it.base for name, it in found.items()} == bases


def test_a_thousand(scratch: Path) -> None:
    """A thousand scenarios in five lines, each of its own name."""
    records = [
        '"a",,,"aircraft F150 -3..3; cost F100 *1.01..1.1/0.01"',
        '"b","--days {3..5}",,"turn {F70,F100,F150} +5..30/5; block {ZRH LHR,LHR ZRH} +5..10/5"',
        '"c",,,"aircraft {F70,F100} -2..2; aircraft F150 -2..2; cost F70 *0.9..1.1/0.1"',
        '"d",,,"only-day 1..7; {,aircraft F70 -1,aircraft F100 -1,aircraft F150 -1}"',
        '"e",,,"drop-leg {X1,X2,X3,X4}; parking ZRH 0..133"',
    ]
    found = listed(scratch, *records)
    assert len(found) == 7 * 10 + 3 * 3 * 6 * 2 * 2 + 2 * 5 * 5 * 3 + 7 * 4 + 4 * 134 == 1000
    assert len({(it.name, *it.words, *it.changes) for it in found.values()}) == 1000


# Records that don't read, and why.
UNREAD = {
    "a,,,aircraft F1 3..1": "the range 3..1 doesn't come from 3 to 1 by 1",
    "a,,,aircraft F1 -1..-3": "the range -1..-3 doesn't come from -1 to -3 by 1",
    "a,,,aircraft F1 1..6/2": "the range 1..6/2 doesn't come from 1 to 6 by 2",
    "a,,,aircraft F1 1..6/0": "the range 1..6/0 doesn't come from 1 to 6 by 0",
    "a,,,aircraft F1 1..+6": "the range 1..+6 begins without a sign, so it may not end with one",
    "a,,,cost F1 *1.01..1.05": "the range *1.01..1.05 has decimals, so it wants its step, as *1.01..1.05/0.01",
    "a,,,aircraft F1 1...3": '"aircraft F1 1...3" doesn\'t read, it should be as aircraft FLEET -1 (or +1, or 5)',
    '"a",,,"aircraft {F1,F2 -1"': "the braces of aircraft {F1,F2 -1 don't read: a list is as {a,b}, and none stands in another one",
    '"a",,,"aircraft {F1,{F2,F3}} -1"': "the braces of aircraft {F1,{F2,F3}} -1 don't read: a list is as {a,b}, and none stands in another one",
    '"a","--days {3",,': "the braces of --days {3 don't read: a list is as {a,b}, and none stands in another one",
    '"a",,,"aircraft {F1,F1} -1"': "a_F1 stands twice",
    "a,,,parking ZRH 0..10000": "there would be 10,001 scenarios, and a run may have 10,000",
    "a,,,parking ZRH 0..9999999999999": "there would be 10,000,000,000,000 scenarios, and a run may have 10,000",
    "a,,,parking ZRH 0..999; parking LHR 0..999": "there would be 1,000,000 scenarios, and a run may have 10,000",
    '"a",--days {1..101},,parking ZRH 0..99': "there would be 10,100 scenarios, and a run may have 10,000",
    f"{'a' * 63},,,aircraft F1 1..3": f'a scenario is named "{"a" * 63}_1", it should be 1 to 64 of A to Z, a to z, 0 to 9, ".", "_", "+" and "-"',
}


@pytest.mark.parametrize("record", UNREAD)
def test_refused(record: str, scratch: Path) -> None:
    """A list or a range that doesn't read, and more scenarios than a run may have, are told before anything is made of them."""
    assert unread(scratch, HEADER, record) == f"scenarios.csv record 2: {UNREAD[record]}"


def test_too_many_records(scratch: Path) -> None:
    """The records together may have no more than a run may."""
    told = unread(scratch, HEADER, "a,,,parking ZRH 1..9999", "b,,,", "c,,,")
    assert told == "scenarios.csv record 4: there would be 10,001 scenarios, and a run may have 10,000"


def test_a_choice_that_is_none(scratch: Path) -> None:
    """A base that speaks of a choice that its record hasn't is told."""
    told = unread(scratch, f"{HEADER},base", "day,,,only-day 1..2,day_{2}")
    assert told == "scenarios.csv record 2: day_{2} speaks of choice 2, and its record has 1"


NIGHT = TABLES["legs.csv"] + "X3,AAA,23:30,BBB,00:30\n"
WEEK = "flight,day,from,dep,to,arr\nX1,1,AAA,08:00,BBB,09:00\nX2,2,BBB,09:20,AAA,10:20\n"
# A legs.csv, a change, a table, and what stands in it then.
CHANGES: List[Tuple[str, str, str, str]] = [
    ("", "turn F1 +5", "fleets.csv", "fleet,aircraft,turn\nF1,1,35\nF2,2,30\n"),
    ("", "turn F2 -30", "fleets.csv", "fleet,aircraft,turn\nF1,1,30\nF2,2,0\n"),
    ("", "turn F2 600; turn F1 +0", "fleets.csv", "fleet,aircraft,turn\nF1,1,30\nF2,2,600\n"),
    (NIGHT, "block AAA BBB +10", "legs.csv", NIGHT.replace("09:00", "09:10").replace("00:30", "00:40")),
    (NIGHT, "block AAA BBB -59", "legs.csv", NIGHT.replace("09:00", "08:01").replace("00:30", "23:31")),
    (NIGHT, "block BBB AAA +10", "legs.csv", NIGHT.replace("10:20", "10:30")),
    (WEEK, "block BBB AAA +839", "legs.csv", WEEK.replace("10:20", "00:19")),
    ("", "block AAA BBB +10", "costs.csv", TABLES["costs.csv"]),
]


@pytest.mark.parametrize("legs, changes, table, wanted", CHANGES, ids=[f"{it[1]} {it[2]}" for it in CHANGES])
def test_change(legs: str, changes: str, table: str, wanted: str, scratch: Path) -> None:
    """A fleet turns slower or faster, and a leg of a pair of stations arrives later or earlier; it departs when it did, and costs the same."""
    lay(scratch, {**TABLES, **({"legs.csv": legs} if legs else {})})
    assert changed(str(scratch), changes.split("; ")) is None
    assert (scratch / table).read_text(encoding="utf-8") == wanted


# Changes that can't be made, and why.
REFUSED = {
    "turn F1 -31": "fleets.csv gives F1 a turn of 30 minutes, and it may have 0 to 600",
    "turn F1 +571": "fleets.csv gives F1 a turn of 30 minutes, and it may have 0 to 600",
    "turn F9 40": "fleets.csv has no F9",
    "block AAA CCC +10": "legs.csv has no flight from AAA to CCC",
    "block AAA BBB -60": "X1 takes 60 minutes, and a leg may take 1 to 1439",
    "block AAA BBB +999; block AAA BBB +381": "X1 takes 1059 minutes, and a leg may take 1 to 1439",
}


@pytest.mark.parametrize("changes", REFUSED)
def test_refused_change(changes: str, scratch: Path) -> None:
    """A turn or a block that may not be is told, and no table is changed."""
    lay(scratch, TABLES)
    assert changed(str(scratch), changes.split("; ")) == f"{changes.split('; ')[-1]}: {REFUSED[changes]}"
    assert {it.name: it.read_text(encoding="utf-8") for it in scratch.glob("*.csv")} == TABLES
