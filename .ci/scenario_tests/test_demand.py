"""Changes of demand and fuel: the pairs of costs.csv are priced anew, and none is added. What is expected comes from numeric integration by
scipy and its normal law, apart from the tools."""

import csv
import io
import os
from fractions import Fraction
from pathlib import Path
from typing import Dict, List, Tuple

import pytest
from cost_tests.days import COSTS, DAY
from scenario_tests.laid import lay, unread
from steps.figures import level
from steps.laying import changed
from steps.listing import scenarios_of

# The day of the cases of tools/costs, with costs that are priced anew.
FIGURES = {**DAY, "costs.csv": "flight,fleet,cost\n" + "".join(f"{it},1\n" for it in COSTS)}
WEEK = "flight,day,from,dep,to,arr\n" + "".join(f"FP1D{it},{it},ZRH,06:00,LHR,07:50\nFP2D{it},{it},LHR,08:40,ZRH,10:20\n" for it in (1, 2))


def costs(folder: Path) -> List[int]:
    """Returns the costs of a folder, in the order of their records."""
    return [int(it["cost"]) for it in csv.DictReader(io.StringIO((folder / "costs.csv").read_text(encoding="utf-8")))]


# Changes, and the costs of FP1 to FP4, each with the A320 and the E190.
PRICED: Dict[str, List[int]] = {
    "demand *1": [10870, 10816, 9554, 8621, 6480, 4915, 6680, 5184],
    "demand *0.8": [10750, 9034, 9534, 7438, 6480, 4730, 6680, 4903],
    "demand *0.5; demand *1.6": [10750, 9034, 9534, 7438, 6480, 4730, 6680, 4903],
    "demand FP1 *1.1": [11084, 11902, 9554, 8621, 6480, 4915, 6680, 5184],
    "demand *0.8; demand FP1 *1.375": [11084, 11902, 9534, 7438, 6480, 4730, 6680, 4903],
    "fuel *1.5": [12703, 12209, 11221, 9887, 7480, 5675, 7680, 5944],
    "fuel *3; fuel *0.5": [12703, 12209, 11221, 9887, 7480, 5675, 7680, 5944],
    "block ZRH LHR +10": [1, 1, 1, 1, 1, 1, 1, 1],
    "block ZRH LHR +10; demand *1": [11583, 11359, 9554, 8621, 6480, 4915, 6680, 5184],
    "demand *1; block ZRH LHR +10": [10870, 10816, 9554, 8621, 6480, 4915, 6680, 5184],
    "demand *0.8; cost E190 *2": [10750, 18068, 9534, 14876, 6480, 9460, 6680, 9806],
    "demand market 0.15 seed 7": [10782, 9941, 9537, 8003, 6481, 5091, 6683, 5419],
    "demand day 0.15 seed 7": [10752, 9149, 9534, 7503, 6480, 4736, 6680, 4914],
    "demand market 0 seed 7": [10870, 10816, 9554, 8621, 6480, 4915, 6680, 5184],
    "demand market 0.15 seed 7; drop-leg FP3; demand *1": [10782, 9941, 9537, 8003, 6683, 5419],
    "demand FP3 *2; drop-leg FP3; fuel *1.5": [12703, 12209, 11221, 9887, 7680, 5944],
}


@pytest.mark.parametrize("changes", PRICED)
def test_priced(changes: str, scratch: Path) -> None:
    """A change prices all pairs anew, on top of those before it."""
    lay(scratch, FIGURES)
    assert changed(str(scratch), changes.split("; ")) is None
    assert costs(scratch) == PRICED[changes]


def test_no_pair_is_added(scratch: Path) -> None:
    """The pairs stay as they are, in their order."""
    lay(scratch, {**FIGURES, "costs.csv": "flight,fleet,cost\nFP4,E190,-7\nFP1,A320,9\n"})
    assert changed(str(scratch), ["demand *0.8"]) is None
    assert (scratch / "costs.csv").read_text(encoding="utf-8") == "flight,fleet,cost\nFP4,E190,4903\nFP1,A320,10750\n"


# Of a week of two days: changes, and the costs of the flights that are left, each with the A320. The levels of days 1 and 2 by seed 1 are
# 0.987 and 0.808, of seed 7 0.816 and 1.248.
OF_DAYS: Dict[str, List[int]] = {
    "demand FP1 *1.1": [11084, 9554, 11084, 9554],
    "demand FP1D2 *1.1": [10870, 9554, 11084, 9554],
    "demand FP1 *1.1; only-day 2; demand *1": [11084, 9554],
    "demand day 0.15 seed 7; only-day 1": [10752, 9534],
    "only-day 1; demand day 0.15 seed 7": [10752, 9534],
}


@pytest.mark.parametrize("changes", OF_DAYS)
def test_days(changes: str, scratch: Path) -> None:
    """In a week a flight's name stands for it on each day, and each day has a level of its own, also where it is solved alone."""
    own = "flight,fleet,cost\n" + "".join(f"{it.split(',')[0]},A320,1\n" for it in WEEK.splitlines()[1:])
    lay(scratch, {**FIGURES, "legs.csv": WEEK, "costs.csv": own})
    assert changed(str(scratch), changes.split("; ")) is None
    assert costs(scratch) == OF_DAYS[changes]


def test_second_day_alone(scratch: Path) -> None:
    """The second day has its own level before and behind the change that leaves it alone, and no other one's."""
    found = []
    for changes in (["demand day 0.15 seed 7", "only-day 2"], ["only-day 2", "demand day 0.15 seed 7"], ["only-day 2", "demand *1.248"]):
        own = "flight,fleet,cost\nFP1D1,E190,1\nFP1D2,E190,1\n"
        lay(scratch, {**FIGURES, "legs.csv": WEEK, "costs.csv": own})
        assert changed(str(scratch), changes) is None
        found.append(costs(scratch))
    assert found[0] == found[1] == found[2] and len(found[0]) == 1


# A seed, a market or a day, and its level with a spread of 0.15.
LEVELS: List[Tuple[int, str, str, str]] = [
    (1, "market", "LHR ZRH", "1.021"), (2, "market", "LHR ZRH", "1.017"), (7, "market", "LHR ZRH", "0.911"), (2, "market", "FRA ZRH", "0.725"),
    (7, "market", "FRA ZRH", "1.088"), (1, "day", "1", "0.987"), (7, "day", "2", "1.248"),
]  # fmt: skip


@pytest.mark.parametrize("seed, kind, name, wanted", LEVELS, ids=[" ".join(map(str, it[:3])) for it in LEVELS])
def test_level(seed: int, kind: str, name: str, wanted: str) -> None:
    """A level is drawn from the seed and the name alone: the quantile of a normal law at the share that SHA-256 makes of both."""
    assert level(seed, kind, name, Fraction("0.15")) == Fraction(wanted)


def test_levels() -> None:
    """Many levels have the mean 1 and the spread that is asked for, and none is below 0."""
    drawn = [level(seed, "market", "LHR ZRH", Fraction(1, 2)) for seed in range(2000)]
    mean = sum(drawn, Fraction(0)) / len(drawn)
    square = sum(((it - mean) * (it - mean) for it in drawn), Fraction(0)) / len(drawn)
    assert min(drawn) == 0 and abs(mean - 1) < Fraction("0.05") and Fraction("0.22") < square < Fraction("0.28")
    assert len(set(drawn)) > 800


# Changes that can't be made, and why.
REFUSED = {
    "demand FP9 *1.1": "demand FP9 *1.1: legs.csv has no FP9",
    "drop-leg FP1; demand FP1 *1.1": "demand FP1 *1.1: legs.csv has no FP1",
    "fuel *999999; fuel *999999": "fuel *999999: legs.csv record 2: FP1 costs 3666659333344203 with A320, and a cost is 1000000000000 at most",
}


@pytest.mark.parametrize("changes", REFUSED)
def test_refused(changes: str, scratch: Path) -> None:
    """What can't be priced is told, files without their folder, and no table is changed."""
    lay(scratch, FIGURES)
    assert changed(str(scratch), changes.split("; ")) == REFUSED[changes]
    assert {it.name: it.read_text(encoding="utf-8") for it in scratch.iterdir()} == FIGURES


@pytest.mark.parametrize("name, text, wanted", [
    ("demand.csv", "flight,mean,sd,fare,recapture\nFP1,125,37.5,130,20\n", "legs.csv record 3: FP2 has no demand by demand.csv"),
    ("demand.csv", "flight,mean,sd,fare,recapture\n*,10,11,130,20\n", "demand.csv record 2: sd is above mean, and"),
    ("types.csv", FIGURES["types.csv"].replace("E190", "E290"), "costs.csv record 3: E190 has no type by types.csv"),
    ("fuel.csv", "station,price\nZRH,800\n", "legs.csv record 3: fuel.csv has no price of fuel at LHR"),
])  # fmt: skip
def test_figures_that_lack(name: str, text: str, wanted: str, scratch: Path) -> None:
    """Figures that lack a record, or don't read, refuse the scenario with file and record."""
    lay(scratch, {**FIGURES, name: text})
    assert str(changed(str(scratch), ["demand *0.8"])).startswith(f"demand *0.8: {wanted}")


# Records that don't read, and why.
FORMS = "demand *0.8 (or demand FLIGHT *0.8, or demand market 0.15 seed 7, or demand day 0.15 seed 7)"
BEHIND = "prices all pairs anew, so it stands before a change of cost"
UNREAD = {
    "cost A320 *1.1; demand *0.8": f'"demand *0.8" {BEHIND}',
    "cost A320 *1.1; drop-leg FP1; fuel *0.8": f'"fuel *0.8" {BEHIND}',
    "demand *0.8; cost A320 *1.1; demand FP1 *1.1": f'"demand FP1 *1.1" {BEHIND}',
    "demand 0.8": f'"demand 0.8" doesn\'t read, it should be as {FORMS}',
    "demand market 0.51 seed 1": f'"demand market 0.51 seed 1" doesn\'t read, it should be as {FORMS}',
    "demand market 0.1": f'"demand market 0.1" doesn\'t read, it should be as {FORMS}',
    "demand flight 0.1 seed 1": f'"demand flight 0.1 seed 1" doesn\'t read, it should be as {FORMS}',
    "fuel ZRH *2": '"fuel ZRH *2" doesn\'t read, it should be as fuel *1.5',
}


@pytest.mark.parametrize("changes", UNREAD)
def test_refused_record(changes: str, scratch: Path) -> None:
    """A change that would undo another one, and one without its form, end the run before it begins."""
    assert unread(scratch, "scenario,words,folder,changes", f"a,,,{changes}") == f"scenarios.csv record 2: {UNREAD[changes]}"


def test_files(scratch: Path) -> None:
    """The figures are among the files that a scenario comes from where it prices pairs, and only there; its own stand before the base's."""
    lay(scratch / "base", {it: text for it, text in FIGURES.items() if it != "fees.csv"})
    lay(scratch / "own", {"demand.csv": FIGURES["demand.csv"]})
    lay(scratch, {"scenarios.csv": "scenario,words,folder,changes\na,,own,demand *1\nb,,,fuel *2\nc,,,cost A320 *2\n"})
    found = {name: it.files(str(scratch / "base"))[5:] for name, it in scenarios_of(str(scratch / "scenarios.csv")).items()}
    places = {name: [os.path.relpath(it, scratch) for it in files] for name, files in found.items()}
    rest = ["base/types.csv", "base/fuel.csv"]
    assert places == {"a": ["own/demand.csv", *rest], "b": ["base/demand.csv", *rest], "c": []}


# What changes are in words.
WORDS = {
    "demand *0.8": "demand is 20 % less",
    "demand FP1 *1.1": "demand of FP1 is 10 % more",
    "fuel *1.5": "fuel costs 50 % more",
    "demand market 0.15 seed 7": "demand of each market is drawn with spread 0.15 from seed 7",
}


@pytest.mark.parametrize("change", WORDS)
def test_words(change: str) -> None:
    """Changes in words."""
    from steps.changes import read_change

    assert read_change(change).told == WORDS[change]
