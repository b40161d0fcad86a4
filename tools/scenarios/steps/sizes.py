"""What the proof of a scenario says of one aircraft less and of one more, fleet by fleet. Nothing is solved."""

import os
import re
from typing import List, Sequence, Tuple

from fleetplan.forms import MOST_AIRCRAFT
from fleetplan.records import records_of
from steps.running import Limits, run
from steps.answers import Answer, write_json
from steps.solving import answer_of_solve, answer_or_fault

CHANGES = {"less": -1, "more": 1}
BOUND = re.compile(r"whatif \S+ \d+: (?:bound (-?\d+)|(infeasible))")


def ask(program: str, solved: str, place: str, limits: Limits, is_last: bool) -> None:
    """Asks the proof that stands in a folder, and notes what it says."""
    write_json(place, answer_or_fault(lambda: asked_or_nothing(program, solved, limits), is_last))


def asked_or_nothing(program: str, solved: str, limits: Limits) -> Answer:
    """Returns what the proof says, or nothing where there is none."""
    answer = answer_of_solve(solved)
    return {"asked": asked_of(program, solved, answer["reading"], limits)} if "solved" in answer else {}


def asked_of(program: str, solved: str, reading: Sequence[str], limits: Limits) -> List[List[object]]:
    """Returns, fleet by fleet in their order, what the program says of each number of aircraft that it may have."""
    asked: List[List[object]] = []
    for fleet, aircraft in fleets_of(solved):
        counts = {name: aircraft + change for name, change in CHANGES.items() if 0 <= aircraft + change <= MOST_AIRCRAFT}
        told = {name: run(program, ["whatif", *reading, solved, fleet, str(it)], limits).told for name, it in counts.items()}
        asked.append([fleet, told])
    return asked


def fleets_of(folder: str) -> List[Tuple[str, int]]:
    """Returns each fleet of a folder with its number of aircraft."""
    rows = [it.texts for it in records_of(os.path.join(folder, "fleets.csv")) if it.number > 1]
    return [(fleet, int(aircraft)) for fleet, aircraft, _ in rows]


def bound_in(told: str) -> str:
    """Returns the bound that was told, or `infeasible`; nothing where the proof says nothing of that number."""
    found = BOUND.fullmatch(told)
    return (found[1] or found[2]) if found else ""
