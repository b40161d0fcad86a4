"""What the summary tells of a scenario against its base: its changes in words, differences, tours, days added up; and what wasn't solved."""

import re
from pathlib import Path
from typing import Any, Dict, Tuple

import pytest
from scenario_tests.laid import FAULT, INFEASIBLE, REFUSED, Ended, column, lay, lay_run, optimal, records, unread
from steps.page import bars_of
from steps.differences import Interval

HEADER = "scenario,words,folder,changes"


def two(base: Any, other: Any, folder: Path) -> Dict[str, str]:
    """Returns the record of a scenario that is compared with another one."""
    lay_run(folder, f"{HEADER}\nbase,,,\nother,,,aircraft F1 -1\n", {"base": base, "other": other})
    return next(it for it in records(folder) if it["scenario"] == "other")


# What a scenario is told to be refused, and one that gave no answer, beside one that was solved.
NOT_SOLVED = {"refused": REFUSED, "NOT SOLVED": FAULT}


@pytest.mark.parametrize("outcome", NOT_SOLVED)
def test_not_solved(outcome: str, scratch: Path) -> None:
    """What wasn't solved fails: it stands first, is told by name, and proofs are counted of those that have one."""
    is_sound, said = lay_run(scratch, f"{HEADER}\nsolved,,,\nnot,,,\n", {"solved": optimal(70), "not": NOT_SOLVED[outcome]})
    assert not is_sound
    assert [(it["scenario"], it["outcome"]) for it in records(scratch)] == [("not", outcome), ("solved", "optimal")]
    assert f"DON'T RELY ON 1 OF THE SCENARIOS:\n  not: {outcome}, " in said
    assert said.endswith(f"\n2 scenarios: 1 {outcome}, 1 optimal. Each proof holds (1).\n")
    assert "Don't rely on 1 of the 2 scenarios: not" in re.sub("&#39;", "'", (scratch / "summary.html").read_text(encoding="utf-8"))


def test_nothing_solved(scratch: Path) -> None:
    """Where nothing was solved no proof is said to hold."""
    is_sound, said = lay_run(scratch, f"{HEADER}\nnot,,,\n", {"not": REFUSED})
    assert not is_sound and said.endswith("\n1 scenarios: 1 refused. There is no proof.\n")


# An outcome that is an answer, and how many proofs there are with it.
ANSWERS = {"optimal": optimal(70), "gap": Ended("gap", 70, 60), "infeasible": INFEASIBLE, "unsettled": Ended("unsettled", None, 60)}


@pytest.mark.parametrize("outcome", ANSWERS)
def test_answers(outcome: str, scratch: Path) -> None:
    """Each of the four outcomes is an answer, and its proof counts."""
    is_sound, said = lay_run(scratch, f"{HEADER}\none,,,\n", {"one": ANSWERS[outcome]})
    assert is_sound and said == f"1 scenarios: 1 {outcome}. Each proof holds (1).\n"


# Of two scenarios what the difference of their least costs is, and that of their bounds.
DIFFERENCES: Dict[str, Tuple[Any, Any, str, str]] = {
    "both optimal": (optimal(100), optimal(130), "30", "30"),
    "both optimal, and cheaper": (optimal(100), optimal(-5), "-105", "-105"),
    "the same": (optimal(100), optimal(100), "0", "0"),
    "a gap here": (optimal(100), Ended("gap", 130, 90), "-10 to 30", "-10"),
    "a gap there": (Ended("gap", 100, 80), optimal(130), "30 to 50", "50"),
    "two gaps": (Ended("gap", 100, 80), Ended("gap", 130, 90), "-10 to 50", "10"),
    "two gaps that are alike": (Ended("gap", 100, 80), Ended("gap", 100, 80), "-20 to 20", "0"),
    "no plan here": (optimal(100), Ended("unsettled", None, 90), "at least -10", "-10"),
    "no plan there": (Ended("unsettled", None, 90), optimal(130), "at most 40", "40"),
    "no plan at all": (Ended("unsettled", None, 90), Ended("unsettled", None, 95), "", "5"),
    "none is legal here": (optimal(100), INFEASIBLE, "infeasible", ""),
    "none is legal there": (INFEASIBLE, optimal(130), "base is infeasible", ""),
    "refused": (optimal(100), REFUSED, "", ""),
    "the other one refused": (REFUSED, optimal(130), "", ""),
}


@pytest.mark.parametrize("name", DIFFERENCES)
def test_difference(name: str, scratch: Path) -> None:
    """A difference of least costs is a number where both are known, else where it lies: bound less cost to cost less bound."""
    base, other, cost, bound = DIFFERENCES[name]
    found = two(base, other, scratch)
    assert (found["cost difference"], found["bound difference"]) == (cost, bound)


def test_aircraft_and_legs(scratch: Path) -> None:
    """Aircraft used more or less by fleet, and legs that change their fleet. A leg that one plan alone has isn't counted."""
    base = optimal(100, used=(2, 1), plan={"X1": "F1", "X2": "F1", "X3": "F2", "X4": "F2"})
    other = optimal(90, used=(1, 3), plan={"X1": "F1", "X2": "F2", "X3": "-", "X5": "F1"})
    found = two(base, other, scratch)
    assert (found["used difference F1"], found["used difference F2"], found["refleeted"]) == ("-1", "2", "2")


@pytest.mark.parametrize("rotations, wanted", [
    (("tour of 2 legs in 1 days", "unused"), ""), (("tour of 2 legs in 1 days without throughs", "too few nights 1 of 3"), "F2"),
    (("apart 2 legs", "visits spent"), "F1 F2"), (("none", "tour of 4 legs in 2 days"), "F1"),
])  # fmt: skip
def test_no_tour(rotations: Tuple[str, str], wanted: str, scratch: Path) -> None:
    """A fleet without a tour is marked, in the table and on the page."""
    lay_run(scratch, f"{HEADER}\nbase,,,\none,,,aircraft F1 -1\n", {"base": optimal(1), "one": optimal(1, rotations=rotations)})
    assert column(scratch, "no tour") == {"base": "", "one": wanted}
    page = (scratch / "summary.html").read_text(encoding="utf-8")
    assert (f'<b class="warn">{wanted}</b>' in page, "can't be flown as asked" in page) == (bool(wanted), bool(wanted))


# Changes, and what they are in words.
WORDS = {
    "": "as it is",
    "aircraft F1 -1": "one F1 less",
    "aircraft F1 +2": "2 F1 more",
    "aircraft F1 5": "5 F1 in all",
    "aircraft F1 +0": "as many F1",
    "turn F1 +5": "F1 turns 5 minutes slower",
    "turn F1 -5": "F1 turns 5 minutes faster",
    "turn F1 40": "F1 turns in 40 minutes",
    "block AAA BBB +10": "AAA to BBB takes 10 minutes longer",
    "block AAA BBB -10": "AAA to BBB takes 10 minutes less",
    "cost F2 *1.1": "F2 costs 10 % more",
    "cost F2 *0.0625": "F2 costs 93.75 % less",
    "cost F2 *1.000001": "F2 costs 0.0001 % more",
    "cost F2 *1": "F2 costs as much",
    "drop-leg X1; parking AAA 2; parking BBB -": "X1 isn't flown; AAA has room for 2 at night; BBB has room for any number at night",
    "only-day 3": "day 3 alone",
    "window X2 -10 5; window X1 15 -3": "X2 may depart 10 minutes earlier for 5; X1 may depart 15 minutes later for -3",
    "optional X2 30": "X2 may be left out for 30",
}


@pytest.mark.parametrize("changes", WORDS)
def test_words(changes: str, scratch: Path) -> None:
    """Changes in words."""
    lay_run(scratch, f"{HEADER}\nbase,,,\nother,,,{changes}\n", {"base": optimal(1), "other": optimal(1)})
    assert column(scratch, "changes")["other"] == WORDS[changes]


def test_words_against_a_base(scratch: Path) -> None:
    """What a scenario changed is told against its base: what both have isn't, and what the base alone has is."""
    for name in ("own", "ours"):
        lay(scratch / name, {"legs.csv": ""})
    listed = [
        "base,--days 4,own,cost F1 *1.1; aircraft F2 -1,",
        "more,--days 4,own,cost  F1 *1.1; aircraft F2 -1; aircraft F2 -1,base",
        "less,--days 4,own,aircraft F2 -1,base",
        "other,--days 5,ours,cost F1 *1.1; aircraft F2 -1,base",
        "bare,,,,base",
        '"longer","--search free --nodes 5 --visits=9 --days=4",own,"cost F1 *1.1; aircraft F2 -1",base',
        '"odd","--days 4 --week",own,"cost F1 *1.1; aircraft F2 -1",base',
    ]
    lay_run(scratch, "\n".join([f"{HEADER},base", *listed, ""]), {it.split(",")[0].strip('"'): optimal(1) for it in listed})
    assert column(scratch, "changes") == {
        "base": "tables of own; F1 costs 10 % more; one F2 less; with --days 4",
        "more": "one F2 less",
        "less": "not: F1 costs 10 % more",
        "other": "tables of ours; with --days 5",
        "bare": "the base tables; not: F1 costs 10 % more; not: one F2 less; without --days 4",
        # How long to search, and how, is no other question.
        "longer": "as it is",
        "odd": "with --days 4 --week",
    }


def test_base(scratch: Path) -> None:
    """A record names the scenario that it is compared with; one that names none is compared with the first, and one may name itself."""
    listed = f"{HEADER},base\nfirst,,,,\nmon,,,,mon\nless,,,,mon\nmore,,,,\n"
    lay_run(scratch, listed, {"first": optimal(1), "mon": optimal(10), "less": optimal(15), "more": optimal(4)})
    assert column(scratch, "base") == {"first": "first", "mon": "mon", "less": "mon", "more": "first"}
    assert column(scratch, "cost difference") == {"first": "", "mon": "", "less": "5", "more": "3"}


UNREAD = {
    f"{HEADER},base\none,,,,two\n": "record 2: one is compared with two, and no scenario has that name",
    f"{HEADER},times\none,,,,-1\n": 'record 2: it is flown "-1" times a year, it should be a whole number of 6 digits at most',
    f"{HEADER},times\none,,,,1.5\n": 'record 2: it is flown "1.5" times a year, it should be a whole number of 6 digits at most',
    f"{HEADER},times,base\none,,,,,\n": f"record 1: {HEADER},times,base, it should be {HEADER}, and maybe base and times behind them",
    f"{HEADER},base\none,,,\n": "record 2: it has 4 fields, it should have 5",
}


@pytest.mark.parametrize("listed", UNREAD)
def test_refused(listed: str, scratch: Path) -> None:
    """A base that isn't there, and times that are none, are told with their record."""
    assert unread(scratch, *listed.splitlines()) == f"scenarios.csv {UNREAD[listed]}"


DAYS = f"""{HEADER},base,times
mon,,,only-day 1,mon,200
sat,,,only-day 6,sat,52
less-mon,,,only-day 1; aircraft F1 -1,mon,
less-sat,,,only-day 6; aircraft F1 -1,sat,
more-mon,,,only-day 1; cost F1 *1.1,mon,
more-sat,,,only-day 6; cost F1 *1.1,sat,60
once,,,only-day 1; aircraft F2 -1,mon,
week,--period 7,,,week,
"""


def test_sums(scratch: Path) -> None:
    """Days are added up as often as they are flown: as they are, and with each change that several of them have."""
    ended = {"mon": optimal(100), "sat": optimal(50), "less-mon": optimal(101), "less-sat": Ended("gap", 60, 48)}
    ended = {**ended, "more-mon": optimal(110), "more-sat": optimal(55), "once": optimal(100), "week": optimal(700)}
    lay_run(scratch, DAYS, ended)
    sums = [it for it in records(scratch) if it["scenario"] == "in sum"]
    told = [[it[name] for name in ("changes", "times", "outcome", "cost", "bound", "gap", "cost difference", "bound difference")] for it in sums]
    assert told == [
        ["as it is", "252", "optimal", "22600", "22600", "0", "", ""],
        # 200 * 101 + 52 * 60, and 200 * 101 + 52 * 48.
        ["one F1 less", "252", "gap", "23320", "22696", "624", "96 to 720", "96"],
        # 200 * 110 + 60 * 55 less 200 * 100 + 52 * 50.
        ["F1 costs 10 % more", "260", "optimal", "25300", "25300", "0", "2700", "2700"],
    ]


def test_sums_that_lack_a_day(scratch: Path) -> None:
    """A change is added up only where each day has it, solved, once. One that isn't legal on a day isn't legal in sum."""
    listed = DAYS + "sun,,,only-day 7,sun,52\nsun-more,,,only-day 7; cost F1 *1.1,sun,\nsun-twice,,,only-day 7; cost  F1 *1.1,sun,\n"
    listed += "all-1,,,only-day 1; aircraft F2 9,mon,\nall-6,,,only-day 6; aircraft F2 9,sat,\nall-7,,,only-day 7; aircraft F2 9,sun,\n"
    listed += "b-1,,,only-day 1; aircraft F2 8,mon,\nb-6,,,only-day 6; aircraft F2 8,sat,\nb-7,,,only-day 7; aircraft F2 8,sun,\n"
    names = [it.split(",")[0] for it in listed.splitlines()[1:]]
    lay_run(scratch, listed, {**{it: optimal(1) for it in names}, "all-6": INFEASIBLE, "b-7": REFUSED})
    assert column(scratch, "told")["in sum: one F1 less"] == "not added up: sun has no such scenario"
    assert column(scratch, "told")["in sum: F1 costs 10 % more"] == "not added up: sun has two such scenarios"
    assert column(scratch, "told")["in sum: 8 F2 in all"] == "not added up: b-7 is refused"
    outcomes = column(scratch, "outcome")
    assert [outcomes[f"in sum: {it}"] for it in ("one F1 less", "9 F2 in all", "as it is")] == ["", "infeasible", "optimal"]
    assert column(scratch, "cost difference")["in sum: 9 F2 in all"] == "infeasible"


def test_no_sums(scratch: Path) -> None:
    """Where no record says how often a day is flown there is no such column, and no sum."""
    lay_run(scratch, f"{HEADER}\none,,,\n", {"one": optimal(1)})
    assert [("times" in it, it["scenario"]) for it in records(scratch)] == [(False, "one")]


def test_bars() -> None:
    """Bars begin at 0, whatever the numbers are, and what isn't known is told apart from what is."""
    found = bars_of({"up": Interval(30, 30), "down": Interval(-20, -10), "both": Interval(-10, 20), "none": Interval(0, 0)}, 100)
    assert [(it.zero, it.left, it.width, it.more_left, it.more_width, it.is_exact) for it in found.values()] == [
        (40, 40, 60, 100, 0, True), (40, 20, 20, 0, 20, False), (40, 40, 0, 20, 60, False), (40, 40, 0, 40, 0, True),
    ]  # fmt: skip
    assert bars_of({"one": Interval(300, 305)}, 610)["one"][:5] == (0, 0, 600, 600, 10)


def test_no_markup_from_a_record(scratch: Path) -> None:
    """No text of a record is markup on the page."""
    listed = f'{HEADER}\nbase,,,\n"other","--days \'<b>4&\'",,\n'
    lay_run(scratch, listed, {"base": optimal(1), "other": {**REFUSED, "told": "<script>"}})
    page = (scratch / "summary.html").read_text(encoding="utf-8")
    assert "<script" not in page and "<b>4" not in page and "&lt;script&gt;" in page
