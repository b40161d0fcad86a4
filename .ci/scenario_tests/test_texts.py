"""What tools/scenarios does with texts: changes of tables, records of scenarios.csv, and the summary. It takes no program and no engine:
bench/scenarios tries those, by hand."""

import os
import shutil
from pathlib import Path
from typing import Dict, Iterable, List, Mapping, Tuple

import pytest
from fleetplan.words import Call
from scenario_tests.laid import lay, summed as sum_up, unread
from scenario_tests.rows import ASKED, ASKED_TEXT, CHANGES, CHECKED, FLAGS, HEADER, OUTCOMES, PERIODS, PLAIN, REFUSED, SOLVED, TABLES
from scenario_tests.rows import UNREAD, ended
from steps.laying import changed
from steps.listing import Scenario, scenarios_of
from steps.solving import read_json, solve, sums_of, write_json
from steps.page import alike
from steps.rows import Row
from steps.running import Limits

TOP = Path(__file__).resolve().parent.parent.parent
LIMITS = Limits(100, 1)
SOLD = scenarios_of(str(TOP / "examples" / "which-to-sell" / "scenarios.csv"))


def listed(folder: Path, record: str) -> Scenario:
    """Returns the scenario of a record."""
    lay(folder, {"scenarios.csv": f"scenario,words,folder,changes\n{record}\n"})
    return next(iter(scenarios_of(str(folder / "scenarios.csv")).values()))


@pytest.mark.parametrize("texts, name, wanted", CHANGES, ids=[it[0] for it in CHANGES])
def test_change(texts: str, name: str, wanted: str, scratch: Path) -> None:
    """A change of tables leaves this table."""
    lay(scratch, TABLES)
    assert changed(str(scratch), texts.split("; ")) is None
    assert (scratch / name).read_text(encoding="utf-8") == wanted


@pytest.mark.parametrize("texts", REFUSED)
def test_refused_change(texts: str, scratch: Path) -> None:
    """A change that can't be made is told, and no table is changed."""
    lay(scratch, TABLES)
    assert changed(str(scratch), texts.split("; ")) == REFUSED[texts]
    assert {it.name: it.read_text(encoding="utf-8") for it in scratch.glob("*.csv")} == TABLES


@pytest.mark.parametrize("record, tables, words, files", FLAGS, ids=[f"{it[0]} {' '.join(it[1])}".strip() for it in FLAGS])
def test_record(record: str, tables: Mapping[str, str], words: List[str], files: List[str], scratch: Path) -> None:
    """A record of scenarios.csv has these words, and its tables come from these files."""
    lay(scratch / "tables", TABLES)
    lay(scratch / "own", tables)
    found = listed(scratch, record)
    assert found.words == words
    assert [os.path.relpath(it, scratch) for it in found.files(str(scratch / "tables"))] == files


@pytest.mark.parametrize("record", UNREAD)
def test_refused_record(record: str, scratch: Path) -> None:
    """A record that doesn't read is told."""
    assert unread(scratch, "scenario,words,folder,changes", record) == f"scenarios.csv record 2: {UNREAD[record]}"


@pytest.mark.parametrize("name", SOLD)
def test_example(name: str, scratch: Path) -> None:
    """The scenarios of examples/which-to-sell read, and their changes can be made on the tables of examples/week."""
    shutil.copytree(TOP / "examples" / "week", scratch / "tables")
    assert changed(str(scratch / "tables"), SOLD[name].changes) is None


@pytest.mark.parametrize("record", PERIODS)
def test_period(record: str, scratch: Path) -> None:
    """Tables are judged by the period of the words as it stands there, so that the program refuses a wrong one."""
    assert listed(scratch, record).period == PERIODS[record]


def test_reading() -> None:
    """The flags of a solve go on to the check, and so do the options that say how tables are read."""
    words = ["--day-start", "04:00", "--windows", "--nodes", "5", "--optional"]
    assert Call(["solve", ".", *words]).reading == ["--day-start", "04:00", "--windows", "--optional"]


def test_earlier(scratch: Path) -> None:
    """Where tables are solved anew, nothing stays that was said of the earlier solution."""
    lay(scratch / "tables", {**TABLES, "refused.txt": "no fleet"})
    lay(scratch / "drawn", {"plan.html": ""})
    lay(scratch, {"check.json": "{}", "sizes.json": "{}"})
    solve("", str(scratch / "tables"), [], str(scratch / "solved"), LIMITS, False)
    assert sorted(it.name for it in scratch.iterdir()) == ["solved", "tables"]


def test_fault_of_tables(scratch: Path) -> None:
    """A fault of the tables is the answer, and a table that a change can't read is told."""
    lay(scratch / "tables", {**TABLES, "fault.txt": "judge ended with 8"})
    solve("", str(scratch / "tables"), [], str(scratch / "solved"), LIMITS, False)
    assert read_json(str(scratch / "solved" / "answer.json")) == {"fault": "judge ended with 8"}
    lay(scratch / "tables", {"legs.csv": "flight\n"})
    assert "doesn't begin with" in str(changed(str(scratch / "tables"), ["drop-leg X1"]))


def lay_outcomes(folder: Path) -> None:
    """Lays scenarios that ended in each way."""
    for name, (answer, check, _) in OUTCOMES.items():
        own = folder / "scenarios" / name
        lay(own / "solved", {**TABLES, **({"plan.csv": PLAIN} if answer.get("solved", {}).get("cost") else {})})
        sums = {"sums": sums_of(str(own / "solved"))}
        write_json(str(own / "solved" / "answer.json"), {**SOLVED, **answer})
        if check is not None:
            write_json(str(own / "check.json"), {**CHECKED, **sums, **check} if "solved" in answer else {})


def test_summary(scratch: Path) -> None:
    """Each way to end has its row, and what isn't proved comes first and is told."""
    lay_outcomes(scratch)
    is_sound, said = summed(scratch, OUTCOMES)
    header, *lines = (scratch / "summary.csv").read_text(encoding="utf-8").splitlines()
    unsound = [name for name, (_, _, row) in OUTCOMES.items() if row.startswith(("NOT ", "refused"))]
    assert header == HEADER
    assert [it.split(",")[0] for it in lines] == [*unsound, *(it for it in OUTCOMES if it not in unsound)]
    assert f"DON'T RELY ON {len(unsound)} OF THE SCENARIOS:" in said and not is_sound
    assert all(f"\n  {it}: " in said for it in unsound)
    assert said.splitlines()[-1] == (
        "10 scenarios: 1 refused, 1 NOT SOLVED, 4 NOT PROVED, 1 optimal, 1 gap, 1 infeasible, 1 unsettled. 4 of 8 proofs hold."
    )
    assert not list((scratch / "scenarios" / "fault").iterdir())


@pytest.mark.parametrize("name", OUTCOMES)
def test_outcome(name: str, scratch: Path) -> None:
    """A way to end has its row."""
    lay_outcomes(scratch)
    summed(scratch, OUTCOMES)
    rows = dict(it.split(",", 1) for it in (scratch / "summary.csv").read_text(encoding="utf-8").splitlines()[1:])
    assert rows.get(name) == OUTCOMES[name][2]


def test_asked(scratch: Path) -> None:
    """What was asked, moved and left out has its columns. A question without an answer and a picture that wasn't drawn are told, and
    are tried again."""
    for name, (reading, plan, sizes) in ASKED.items():
        own = scratch / "scenarios" / name
        lay(own / "solved", {**TABLES, "plan.csv": plan})
        write_json(str(own / "solved" / "answer.json"), {**SOLVED, **ended(), "reading": reading})
        write_json(str(own / "check.json"), {**CHECKED, "sums": sums_of(str(own / "solved"))})
        write_json(str(own / "sizes.json"), sizes)
    lay(scratch / "scenarios" / "plain" / "drawn", {"fault.txt": "tools/draw: no room"})
    is_sound, said = summed(scratch, ASKED)
    assert (scratch / "summary.csv").read_text(encoding="utf-8") == ASKED_TEXT
    assert "Call it again" in said and not is_sound
    standing = sorted(str(it.relative_to(scratch)) for name in ("sizes.json", "drawn") for it in scratch.glob(f"scenarios/*/{name}"))
    assert standing == ["scenarios/plain/sizes.json", "scenarios/timed/sizes.json"]
    row = '<th scope="row">timed</th><td class="n">20</td><td class="n">infeasible</td>'
    assert row in (scratch / "summary.html").read_text(encoding="utf-8")


CHARTS: Dict[Tuple[int, ...], List[List[int]]] = {(70, 30, 80, 31): [[70, 80], [30, 31]], (-5, 0, 9, 18): [[-5, 0, 9, 18]], (): []}


@pytest.mark.parametrize("costs", CHARTS)
def test_charts(costs: Tuple[int, ...]) -> None:
    """A cost more than twice the next smaller one begins a chart of its own."""
    rows = [Row(str(it), "optimal", solved={"cost": str(it)}) for it in costs]
    assert [[it.cost for it in part] for part in alike(rows)] == CHARTS[costs]


def summed(folder: Path, names: Iterable[str]) -> Tuple[bool, str]:
    """Sums up scenarios of a folder, each compared with the first, and returns whether all is well, and what is told."""
    lay(folder, {"scenarios.csv": "".join(f"{it}\n" for it in ["scenario,words,folder,changes", *(f"{name},,," for name in names)])})
    return sum_up(folder)
