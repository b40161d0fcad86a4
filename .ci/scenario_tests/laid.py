"""Runs of scenarios as they stand in a folder when all steps have ended, laid by hand."""

import contextlib
import csv
import io
import os
from pathlib import Path
from typing import Any, Dict, List, Mapping, NamedTuple, Optional, Sequence, Tuple

import pytest
from fleetplan.errors import Unread
from scenario_tests.rows import CHECKED, SOLVED, TABLES
from steps.listing import scenarios_of
from steps.solving import sums_of, write_json
from steps.summary import summarize

# The fleets of these runs, and the plan where none is told.
FLEETS = ("F1", "F2")
PLAN = {"X1": "F1", "X2": "F1"}
TOURS = ("tour of 2 legs in 1 days", "unused")


class Ended(NamedTuple):
    """How a scenario ended: the outcome, the cost and the bound (None: there is none), aircraft used by fleet, what became of rotations, the
    plan, and what else differs from an answer of `solve` that was checked."""

    outcome: str
    cost: Optional[int]
    bound: Optional[int]
    used: Sequence[int] = (1, 0)
    rotations: Sequence[str] = TOURS
    plan: Mapping[str, str] = PLAN

    def solved(self) -> Dict[str, Any]:
        """Returns what `solve` answered."""
        has_plan = self.cost is not None
        fleets = [{"name": name, "has": 2, "used": used} for name, used in zip(FLEETS, self.used)]
        return {
            "outcome": self.outcome,
            "cost": None if self.cost is None else str(self.cost),
            "bound": None if self.bound is None else str(self.bound),
            "splits": 0,
            "fleets": fleets if has_plan else [],
            "rotations": list(self.rotations) if has_plan else [],
        }

    def claim(self) -> str:
        """Returns what the check said."""
        if self.outcome == "infeasible":
            return "holds: infeasible"
        return f"holds: {'' if self.cost is None else f'cost {self.cost} '}bound {self.bound}"


def optimal(cost: int, **how: Any) -> Ended:
    """Returns a scenario whose plan costs least."""
    return Ended("optimal", cost, cost, **how)


INFEASIBLE = Ended("infeasible", None, None)
# What stands in the place of a scenario that the program refused, and of one whose solve gave no answer.
REFUSED = {"told": "bad input: costs.csv record 4 kind 7", "seconds": 0, "memory": 0}
FAULT = {"fault": "solve ended with 8: memory ran out"}


def lay(folder: Path, tables: Mapping[str, str]) -> None:
    """Writes tables into a folder."""
    folder.mkdir(parents=True, exist_ok=True)
    for name, text in tables.items():
        (folder / name).write_text(text, encoding="utf-8")


def unread(folder: Path, *listed: str) -> str:
    """Returns what is told of the lines of a scenarios.csv that doesn't read."""
    lay(folder, {"scenarios.csv": "".join(f"{it}\n" for it in listed)})
    with pytest.raises(Unread) as error:
        scenarios_of(str(folder / "scenarios.csv"))
    return str(error.value).replace(f"{folder}/", "")


def lay_ended(own: Path, ended: Any) -> None:
    """Lays a scenario's folder by how it ended, or by its answer alone."""
    lay(own / "solved", TABLES)
    if not isinstance(ended, Ended):
        write_json(str(own / "solved" / "answer.json"), ended)
        write_json(str(own / "check.json"), {})
        return
    if ended.cost is not None:
        plan = "flight,fleet\n" + "".join(f"{flight},{fleet}\n" for flight, fleet in ended.plan.items())
        (own / "solved" / "plan.csv").write_text(plan, encoding="utf-8")
    write_json(str(own / "solved" / "answer.json"), {**SOLVED, "solved": ended.solved()})
    write_json(str(own / "check.json"), {**CHECKED, "told": ended.claim(), "sums": sums_of(str(own / "solved"))})


def lay_run(folder: Path, listed: str, ended: Mapping[str, Any]) -> Tuple[bool, str]:
    """Lays a run with this scenarios.csv, sums it up, and returns whether all is well and what is told."""
    lay(folder, {"scenarios.csv": listed})
    for name, it in ended.items():
        lay_ended(folder / "scenarios" / name, it)
    return summed(folder)


def summed(folder: Path) -> Tuple[bool, str]:
    """Sums up a run, and returns whether all is well and what is told."""
    said, before = io.StringIO(), os.getcwd()
    os.chdir(folder)
    try:
        with contextlib.redirect_stderr(said):
            return summarize(scenarios_of("scenarios.csv"), "scenarios"), said.getvalue()
    finally:
        os.chdir(before)


def records(folder: Path) -> List[Dict[str, str]]:
    """Returns the records of a run's summary, by the names of their columns."""
    with open(folder / "summary.csv", newline="", encoding="utf-8") as it:
        return list(csv.DictReader(it))


def column(folder: Path, name: str) -> Dict[str, str]:
    """Returns a column of a run's summary by scenario; of sums by their changes."""
    return {it["scenario"] if it["scenario"] != "in sum" else f"in sum: {it['changes']}": it[name] for it in records(folder)}
