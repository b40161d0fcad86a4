"""What tools/scenarios/table and tools/scenarios/compare print of summaries."""

import re
import subprocess
import sys
import tempfile
from pathlib import Path
from typing import Any, Dict, Iterator, List, Sequence, Tuple

import pytest
from scenario_tests.laid import FAULT, INFEASIBLE, REFUSED, Ended, lay, lay_run, optimal

TOP = Path(__file__).resolve().parent.parent.parent
NIGHTS = ("tour of 2 legs in 1 days", "too few nights 1 of 3")
LISTED = """scenario,words,folder,changes,base
week,--period 7,,,week
week-F1,--period 7,,aircraft F1 -1,week
mon,,,only-day 1,mon
mon-F1,,,only-day 1; aircraft F1 -1,mon
mon-F2,,,only-day 1; aircraft F2 -1,mon
"""


def called(name: str, *words: object) -> Tuple[int, str, str]:
    """Returns the status of a tool, and what it prints."""
    ran = subprocess.run([sys.executable, str(TOP / "tools" / "scenarios" / name), *map(str, words)], capture_output=True, text=True, check=False)
    return ran.returncode, ran.stdout, ran.stderr


def test_table(scratch: Path) -> None:
    """Rows are changes, and columns what they are compared with. What can't be flown as asked is marked."""
    ended = {"week": optimal(1986460), "week-F1": optimal(1986460 + 16760), "mon": optimal(303480), "mon-F1": optimal(303480, rotations=NIGHTS)}
    lay_run(scratch, LISTED, {**ended, "mon-F2": Ended("gap", 304480, 301480)})
    rows = "| as it is | 1,986,460 | 303,480 |\n| one F1 less | 16,760 | 0 \\* |\n| one F2 less |  | -2,000 to 1,000 |\n"
    note = "\\* A fleet has no tour, or none was found, so this plan can't be flown as asked.\n"
    assert called("table", scratch) == (0, f"|  | week | mon |\n|---|---|---|\n{rows}\n{note}", "")


def test_table_of_days(scratch: Path) -> None:
    """The last column adds up the days of a year, and what isn't known is told as it is."""
    listed = LISTED.replace("changes,base", "changes,base,times").replace(",week\n", ",week,\n").replace(",mon\n", ",mon,5\n")
    listed += "sun,,,only-day 7,sun,2\nsun-F1,,,only-day 7; aircraft F1 -1,sun,\nsun-F2,,,only-day 7; aircraft F2 -1,sun,\n"
    ended: Dict[str, Any] = {"week": INFEASIBLE, "week-F1": FAULT, "mon": optimal(1000), "mon-F1": optimal(1001), "mon-F2": INFEASIBLE}
    lay_run(scratch, listed, {**ended, "sun": Ended("gap", 90, 80), "sun-F1": optimal(100), "sun-F2": REFUSED})
    assert called("table", scratch)[1].splitlines() == [
        "|  | week | mon | sun | in sum |",
        "|---|---|---|---|---|",
        "| times |  | 5 | 2 | 7 |",
        "| as it is | infeasible | 1,000 | 80 to 90 | 5,160 to 5,180 |",
        "| one F1 less | NOT SOLVED | 1 | 10 to 20 | 25 to 45 |",
        "| one F2 less |  | infeasible | refused | unknown |",
    ]


# Words that are no call, and runs without a summary: what is told, and the status.
REFUSALS: List[Tuple[str, Sequence[str], int, str]] = [
    ("table", [], 2, "usage: tools/scenarios/table RUN\n"),
    ("table", ["a", "b"], 2, "usage: tools/scenarios/table RUN\n"),
    ("compare", ["run"], 2, "usage: tools/scenarios/compare A B\n"),
    ("compare", ["run", "--help-me"], 2, "usage: tools/scenarios/compare A B\n"),
    ("table", ["none"], 7, "tools/scenarios/table: none/summary.csv can't be read: No such file or directory\n"),
    ("compare", ["run", "none"], 7, "tools/scenarios/compare: none/summary.csv can't be read: No such file or directory\n"),
    ("table", ["empty"], 6, "tools/scenarios/table: empty/summary.csv is empty\n"),
    ("table", ["short"], 6, "tools/scenarios/table: short/summary.csv record 2: it has 1 fields, it should have 8\n"),
    ("table", ["words"], 6, "tools/scenarios/table: words/summary.csv record 2: a cost, a bound or a number of aircraft is none\n"),
    ("table", ["old"], 6, "tools/scenarios/table: old/summary.csv record 1: there is no column base, changes, cost difference, no tour: "
     "call the run once more, which writes the summary anew\n"),
]  # fmt: skip
HEADER = "scenario,outcome,cost,bound,base,changes,cost difference,no tour"
SUMMARIES = {
    "empty": "",
    "old": "scenario,outcome,cost,bound\nas-is,optimal,1,1\n",
    "short": f"{HEADER}\nas-is\n",
    "words": f"{HEADER}\nas-is,optimal,1.5,1,as-is,as it is,,\n",
    "run": f"{HEADER}\nas-is,optimal,1,1,as-is,as it is,,\n",
}


@pytest.mark.parametrize("tool, words, status, wanted", REFUSALS, ids=[" ".join((it[0], *it[1])) for it in REFUSALS])
def test_refused(tool: str, words: Sequence[str], status: int, wanted: str, scratch: Path, monkeypatch: pytest.MonkeyPatch) -> None:
    """Words that are no call, and summaries that don't read, are told in one line."""
    monkeypatch.chdir(scratch)
    for name, text in SUMMARIES.items():
        lay(Path(name), {"summary.csv": text})
    assert called(tool, *words) == (status, "", wanted)


@pytest.mark.parametrize("tool", ["table", "compare"])
def test_help(tool: str) -> None:
    """Each tells how it is called."""
    status, told, _ = called(tool, "--help")
    assert status == 0 and f"usage: tools/scenarios/{tool}" in told


# Of a scenario how it ended in A and in B, and its row behind the name.
PAIRS: Dict[str, Tuple[Any, Any, str]] = {
    "same": (optimal(100), optimal(100), "optimal 100 | optimal 100 | 0 | +0 |  | 0"),
    "dearer": (optimal(100), optimal(1300, used=(2, 1)), "optimal 100 | optimal 1,300 | +1,200 | +1,200 | F1 +1, F2 +1 | 0"),
    "cheaper": (optimal(100), optimal(90, plan={"X1": "F1", "X2": "F2"}), "optimal 100 | optimal 90 | -10 | -10 |  | 1"),
    "gap": (optimal(100), Ended("gap", 110, 95), "optimal 100 | gap 110 | -5 to +10 | -5 |  | 0"),
    "legal": (INFEASIBLE, optimal(5), "infeasible | optimal 5 | infeasible in A"),
    "illegal": (optimal(5), INFEASIBLE, "optimal 5 | infeasible | infeasible in B"),
    "neither": (INFEASIBLE, INFEASIBLE, "infeasible | infeasible"),
    "lost": (optimal(5), FAULT, "optimal 5 | NOT SOLVED | not known"),
    "tours": (optimal(5), optimal(5, rotations=NIGHTS), "optimal 5 | optimal 5 | 0 | +0 |  | 0 | - | F2"),
}


@pytest.fixture(scope="module")
def pairs() -> Iterator[List[str]]:
    """The lines of compare of two runs."""
    with tempfile.TemporaryDirectory(prefix="fleetplan-") as folder:
        yield lay_pairs(Path(folder))


def lay_pairs(scratch: Path) -> List[str]:
    """Lays two runs, and returns the lines of compare."""
    for place, side in enumerate("ab"):
        own: Dict[str, Any] = {**{name: it[place] for name, it in PAIRS.items()}, f"only-{side}": optimal(1), "asks": optimal(1)}
        listed = "scenario,words,folder,changes\n" + "".join(f"{name},,,{f'aircraft F1 {place + 3}' if name == 'asks' else ''}\n" for name in own)
        lay_run(scratch / side, listed, own)
    status, told, wrong = called("compare", scratch / "a", scratch / "b")
    assert (status, wrong) == (0, "")
    return told.splitlines()


@pytest.mark.parametrize("name", PAIRS)
def test_compared(name: str, pairs: List[str]) -> None:
    """A scenario of two runs stands side by side: a difference is a number where both least costs are known, else where it lies."""
    row = next(it for it in pairs if it.startswith(f"{name} "))
    assert re.split(r"  +", row)[1:] == [it.strip() for it in PAIRS[name][2].split("|", 6) if it.strip()]


def test_two_runs(pairs: List[str]) -> None:
    """What one run has alone is told, what asks something else, and how many are dearer and cheaper."""
    assert re.split(r"  +", pairs[0]) == ["scenario", "A", "B", "difference", "bound", "used", "refleeted", "no tour"]
    assert pairs[-4:] == [
        "Only in A: only-a",
        "Only in B: only-b",
        "Other changes, bases or times in A than in B: asks",
        "10 scenarios in both; of B: 4 same, 1 cheaper, 1 dearer, 4 not known.",
    ]


def test_plans_that_were_changed(scratch: Path) -> None:
    """Legs aren't counted of a plan that isn't the one that was checked."""
    lay_pairs(scratch)
    plan = scratch / "b" / "scenarios" / "cheaper" / "solved" / "plan.csv"
    plan.write_text(plan.read_text(encoding="utf-8") + "X3,F1\n", encoding="utf-8")
    row = next(it for it in called("compare", scratch / "a", scratch / "b")[1].splitlines() if it.startswith("cheaper "))
    assert re.split(r"  +", row)[1:] == ["optimal 100", "optimal 90", "-10", "-10"]


def test_sums_side_by_side(scratch: Path) -> None:
    """Days that are added up are compared too, and counted as none of the scenarios."""
    listed = "scenario,words,folder,changes,base,times\nmon,,,,mon,5\nsun,,,,sun,2\n"
    lay_run(scratch / "a", listed, {"mon": optimal(10), "sun": optimal(20)})
    lay_run(scratch / "b", listed, {"mon": optimal(11), "sun": Ended("gap", 20, 19)})
    lines = called("compare", scratch / "a", scratch / "b")[1].splitlines()
    assert re.split(r"  +", lines[3]) == ["in sum: as it is", "optimal 90", "gap 95", "+3 to +5", "+3"]
    assert lines[-1] == "2 scenarios in both; of B: 1 dearer, 1 not known."
