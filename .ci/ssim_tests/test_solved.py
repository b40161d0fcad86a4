"""From the example to tables with other times and legs that may be left out, to a cheapest plan, and back into the file: its tables are
that plan."""

import re
from pathlib import Path
from typing import List, Optional, Sequence, Tuple

import pytest
from fleetplan.program import Runner
from ssim_tests.test_plans import DATE
from ssim_tests.test_shifts import times_by
from ssim_tests.trying import EXAMPLE, call, records

# Two flights that are paid for their ten minutes, and two that cost less not flown.
WINDOWS = "flight,shift,extra\nZZ300,10,-500\nZZ301,10,-500\nZZ302,-5,10\nZZ302,5,10\nZZ200B,15,40\n"
OPTIONAL = "flight,skip\nZZ324,0\nZZ325,0\nZZ91,1000000\n"


def run(*words: object) -> Tuple[int, List[str]]:
    """Returns the program's status, and what it printed in lines."""
    ran = Runner().run(*words)
    return ran.status, ran.text.splitlines()


class Plan:
    """The plan of a folder: of each leg its fleet and its shift, and what shifts and legs left out cost by its tables."""

    def __init__(self, day: Path) -> None:
        rows = [it.split(",") for it in records(day, "plan.csv")]
        self.fleets, self.shifts = {it[0]: it[1] for it in rows}, {it[0]: int(it[2]) for it in rows}
        extras = {tuple(it.split(",")[:2]): int(it.split(",")[2]) for it in records(day, "windows.csv")}
        skips = dict(it.split(",") for it in records(day, "optional.csv"))
        self.extra = sum(extras[flight, str(shift)] for flight, shift in self.shifts.items() if shift)
        self.skip = sum(int(skips[flight]) for flight, fleet in self.fleets.items() if fleet == "-")

    def has(self, flights: str, fleet: Optional[str], shift: int) -> bool:
        """Returns whether all legs of some flights are planned so."""
        own = [it for it in self.fleets if re.fullmatch(f"({flights})(D[1-7])?", it)]
        return bool(own) and all((fleet is None or self.fleets[it] == fleet) and self.shifts[it] == shift for it in own)


def cost_of(lines: Sequence[str]) -> int:
    """Returns the cost of a verdict."""
    return int(lines[0].partition("legal: cost ")[2])


@pytest.mark.usefixtures("program")
@pytest.mark.parametrize("option, period", [("--date", ()), ("--week", ("--period", "7"))])
@pytest.mark.parametrize("words", [(), ("--whole-season",)], ids=["dates", "season"])
def test_solved(option: str, period: Sequence[str], words: Sequence[str], scratch: Path) -> None:
    """Tables that are made and solved, and whose plan is written back, come out of the new file as planned."""
    given = ["--stations", EXAMPLE / "stations.csv", "--costs", EXAMPLE / "prices.csv"]
    (scratch / "windows").write_text(WINDOWS, encoding="ascii")
    (scratch / "optional").write_text(OPTIONAL, encoding="ascii")
    file, day, new, again = EXAMPLE / "season.ssim", scratch / "day", scratch / "new", scratch / "again"
    made = call("tables", file, day, option, DATE, *given, "--windows", scratch / "windows", "--optional", scratch / "optional")
    status, lines = run("solve", day, *period, "--windows", "--optional")
    assert (made[0], status, lines[:1]) == (0, 0, ["outcome: optimal"])
    plan = Plan(day)
    assert plan.has("ZZ30[01]", None, 10) and plan.has("ZZ32[45]", "-", 0), "what pays is planned"
    judged, before = run("judge", day, *period, "--windows", "--optional")
    status, told = call("plan", file, day, new, *words)
    assert (judged, status) == (0, 0)
    call("tables", new, again, option, DATE, *given, "--fleets", day / "fleets.csv")
    assert times_by(again) == times_by(day, plan), "legs depart as planned"
    judged, after = run("judge", again, *period)
    assert (judged, after[1:]) == (0, before[1:]), "flown by the same aircraft"
    assert cost_of(after) + plan.extra + plan.skip == cost_of(before)
