"""The summary of all scenarios, of which those that aren't proved come first."""

import os
from collections import Counter
from typing import Any, Dict, List, Mapping, Optional, Sequence

from fleetplan.errors import Unread
from fleetplan.files import remove, write_all
from fleetplan.program import PROGRAM
from fleetplan.texts import tell
from steps.answers import ANSWER, CHECK, SIZES, Answer, Torn, answer_in
from steps.flagged import choice_of, moved_and_left_out, planned
from steps.laying import FAULT
from steps.listing import Scenario
from steps.page import page
from steps.rows import REFUSED, UNPROVED, UNSOLVED, Row
from steps.sheet import Sheet
from steps.solving import DRAWN, sum_of, sums_of, text_in
from steps.sums import sums_of as days_added
from steps.telling import told_of

RULE = "*" * 78
MOST_TOLD = 20


def rows_of(scenarios: Mapping[str, Scenario], folder: str) -> List[Row]:
    """Returns the rows of scenarios, each with the one that it is compared with, in their order."""
    rows = {name: row_of(name, os.path.join(folder, name)) for name in scenarios}
    for name, it in scenarios.items():
        row = rows[name]
        row.base, row.times = rows[it.base], it.times
        row.changes = told_of(it, scenarios[it.base])
    return list(rows.values())


def row_of(name: str, folder: str) -> Row:
    """Returns the row of a scenario by what stands in its folder. Where an answer there isn't whole, it is to be solved once more."""
    try:
        return row_by(name, folder)
    except Torn as error:
        return Row(name, UNSOLVED, f"{error}: the next call makes it anew")


def row_by(name: str, folder: str) -> Row:
    """Returns the same, or raises Torn."""
    solved = os.path.join(folder, "solved")
    answer = answer_in(os.path.join(solved, ANSWER))
    if "fault" in answer:
        return Row(name, UNSOLVED, answer["fault"])
    check = answer_in(os.path.join(folder, CHECK))
    if "solved" not in answer:
        row = Row(name, REFUSED, answer["told"])
    else:
        wrong = wrong_with(answer["solved"], check, solved)
        said = check.get("told", "")
        row = Row(name, UNPROVED, wrong, said) if wrong else Row(name, answer["solved"]["outcome"], "", said, answer["solved"])
    if row.solved and row.cost is not None:
        row = add_plan(row, solved, answer["reading"])
    if row.solved:
        add_asked(row, os.path.join(folder, SIZES))
        undrawn = text_in(os.path.join(folder, DRAWN, FAULT))
        if undrawn:
            row.add_fault(f"it wasn't drawn: {undrawn}")
    row.seconds = answer["seconds"] + check.get("seconds", 0)
    row.memory = max(answer["memory"], check.get("memory", 0))
    return row


def add_plan(row: Row, solved: str, reading: Sequence[str]) -> Row:
    """Returns the row of a scenario with what its plan says, or, where that doesn't read, one that isn't proved."""
    try:
        flown = planned(solved)
    except Unread as error:
        return Row(row.name, UNPROVED, str(error), row.check)
    row.choice = choice_of(flown)
    row.moved, row.left_out = moved_and_left_out(flown, reading)
    return row


def add_asked(row: Row, path: str) -> None:
    """Notes what the proof of a scenario says of other numbers of aircraft, where it was asked."""
    answer = answer_in(path) if os.path.lexists(path) else {}
    row.asked = dict(answer.get("asked", []))
    if "fault" in answer:
        row.add_fault(f"other numbers of aircraft weren't asked: {answer['fault']}")


def wrong_with(solved: Mapping[str, Any], check: Answer, folder: str) -> Optional[str]:
    """Returns why an answer isn't proved, or None."""
    if not check:
        raise Torn(f"{CHECK} isn't whole")
    if "fault" in check:
        return f"it wasn't checked: {check['fault']}"
    if not check["told"].startswith("holds: "):
        return "its proof does not hold"
    if check["told"] != claim(solved):
        return f"its proof holds for something else than was answered ({claim(solved)})"
    try:
        sums = sums_of(folder)
    except OSError as error:
        return f"{error.filename} can't be compared with what was checked: {error.strerror}"
    changed = sorted(it for it in {*sums, *check["sums"]} if sums.get(it) != check["sums"].get(it))
    return f"changed after the check: {', '.join(changed)} of {folder}" if changed else None


def claim(solved: Mapping[str, Any]) -> str:
    """Returns what a check has to say of an answer."""
    if solved["outcome"] == "infeasible":
        return "holds: infeasible"
    cost = "" if solved["cost"] is None else f"cost {solved['cost']} "
    return f"holds: {cost}bound {solved['bound']}"


def summarize(scenarios: Mapping[str, Scenario], folder: str, program: str = PROGRAM) -> bool:
    """Writes the summary of the scenarios by a program, and returns whether each was solved, each proof holds, and no step failed."""
    rows = rows_of(scenarios, folder)
    rows.sort(key=lambda it: it.is_sound)
    sums = days_added(rows)
    other = told_of_program(program)
    write_all(".", {"summary.csv": Sheet(rows, sums).text(), "summary.html": page(rows, sums, folder, other)})
    for it in scenarios:
        forget_faults(os.path.join(folder, it))
    unsound, partial = [it for it in rows if not it.is_sound], [it for it in rows if not it.is_whole]
    told = warning(unsound) if unsound else []
    if partial:
        told += ["Call it again, since not each step ended:", *listed(partial)]
    tell(*told, *([other] if other else []), counted(rows))
    return not unsound and not partial


def told_of_program(program: str) -> str:
    """Returns what is told of a program that isn't the one of this clone, with the sum of its bytes; nothing of that one, or of a copy."""
    if os.path.realpath(program) == os.path.realpath(PROGRAM):
        return ""
    try:
        found = sum_of(program)
        is_own = os.path.isfile(PROGRAM) and found == sum_of(PROGRAM)
    except OSError as error:
        found, is_own = f"none: {error.strerror}", False
    return "" if is_own else f"By another program than this clone's own: {os.path.realpath(program)} (sha256 {found})."


def counted(rows: Sequence[Row]) -> str:
    """Returns how many scenarios ended how, and how many proofs hold of those that there are."""
    counts: Dict[str, int] = Counter(it.outcome for it in rows)
    proofs = [it for it in rows if it.outcome not in (REFUSED, UNSOLVED)]
    hold = sum(it.is_sound for it in proofs)
    proved = f"{hold} of {len(proofs)} proofs hold." if hold < len(proofs) else f"Each proof holds ({hold})." if proofs else "There is no proof."
    return f"{len(rows)} scenarios: {', '.join(f'{number} {outcome}' for outcome, number in counts.items())}. {proved}"


def forget_faults(folder: str) -> None:
    """Takes away what a fault has left, so that the next run does it again. Where there is no solution nothing of it may stay: the
    engine looks for the last outputs alone."""
    has_fault = {"tables": has_text, "solved": has_no_answer, CHECK: is_no_check, SIZES: is_fault, DRAWN: has_text}
    places = {name: os.path.join(folder, name) for name in has_fault}
    faulty = {name for name, path in places.items() if os.path.lexists(path) and has_fault[name](path)}
    for name in faulty | ({CHECK, SIZES, DRAWN} if "solved" in faulty else set()):
        remove(places[name])


def has_text(folder: str) -> bool:
    """Returns whether a folder tells a fault."""
    return os.path.exists(os.path.join(folder, FAULT))


def has_no_answer(folder: str) -> bool:
    """Returns whether the answer in a folder is a fault."""
    return is_fault(os.path.join(folder, ANSWER))


def is_fault(path: str) -> bool:
    """Returns whether the answer in a file is a fault, or isn't whole."""
    try:
        return "fault" in answer_in(path)
    except Torn:
        return True


def is_no_check(path: str) -> bool:
    """Returns whether a check is a fault, or says nothing of what was solved."""
    solved = os.path.join(os.path.dirname(path), "solved", ANSWER)
    return is_fault(path) or not answer_in(path) and not is_fault(solved) and "solved" in answer_in(solved)


def warning(unsound: Sequence[Row]) -> List[str]:
    """Returns what can't be overlooked, in lines."""
    return [RULE, f"DON'T RELY ON {len(unsound)} OF THE SCENARIOS:", *listed(unsound), "They stand first in summary.csv.", RULE]


def listed(rows: Sequence[Row]) -> List[str]:
    """Returns a line of each scenario, of the first ones where there are many."""
    told = [f"  {it.name}: {it.outcome}, {it.told}{f' ({it.check})' if it.check else ''}" for it in rows[:MOST_TOLD]]
    return [*told, f"  and {len(rows) - MOST_TOLD} more"] if len(rows) > MOST_TOLD else told
