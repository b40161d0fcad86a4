"""The solution of a scenario, the check of it in a process of its own, and its picture."""

import hashlib
import json
import os
import shutil
import subprocess
import sys
from typing import Callable, Dict, Optional, Sequence

from fleetplan.files import new_folder, remove, write
from fleetplan.program import TOP
from fleetplan.tables import TABLES
from fleetplan.words import Call
from steps.answers import ANSWER, CHECK, SIZES, Answer, Torn, answer_in, read_json, write_json  # noqa: F401 (others read one)
from steps.flagged import FLAGGED, tables_in
from steps.laying import FAULT, REFUSED
from steps.running import Fault, Limits, run

# Beside the folder of the solution, as CHECK and SIZES are.
DRAWN = "drawn"
CLAIMED = (*TABLES, *FLAGGED.values(), "plan.csv", "proof.txt")
# The statuses with which `solve` has written a proof.
PROVED = (0, 3, 4, 5)
# Of a file so many bytes are read at once.
PART = 1 << 20


def solve(program: str, tables: str, words: Sequence[str], place: str, limits: Limits, is_last: bool) -> None:
    """Makes the folder of the solution: the tables, what `solve` writes, and its answer, which may be a fault at the last try. What was
    written of an earlier solution goes, also where it isn't wanted any more."""
    for it in (CHECK, SIZES, DRAWN):
        remove(os.path.join(os.path.dirname(place), it))
    with new_folder(place) as beside:
        for name in tables_in(tables):
            shutil.copyfile(os.path.join(tables, name), os.path.join(beside, name))
        answer = refusal_of(tables) or answer_or_fault(lambda: answer_of(program, beside, words, limits), is_last)
        write_json(os.path.join(beside, ANSWER), answer)


def refusal_of(tables: str) -> Optional[Answer]:
    """Returns the answer where tables can't be solved, or None."""
    fault, refusal = (text_in(os.path.join(tables, it)) for it in (FAULT, REFUSED))
    if fault:
        return {"fault": fault}
    return {"told": refusal, "seconds": 0, "memory": 0} if refusal else None


def text_in(path: str) -> Optional[str]:
    """Returns the text of a file, or None where none stands there."""
    if not os.path.exists(path):
        return None
    with open(path, encoding="utf-8", errors="backslashreplace") as it:
        return it.read()


def answer_of(program: str, place: str, words: Sequence[str], limits: Limits) -> Answer:
    """Returns the answer of `solve` in a folder, with the words by which its tables are read."""
    call = Call(["solve", place, *words])
    as_json = [] if "json" in call.given else ["--json"]
    ran = run(program, ["solve", *as_json, place, *words], limits)
    answer = {"status": ran.status, "told": ran.told, "seconds": ran.seconds, "memory": ran.memory}
    if ran.status in PROVED:
        answer["solved"] = json.loads(ran.told)
        answer["reading"] = call.reading
    return answer


def check(program: str, solved: str, place: str, limits: Limits, is_last: bool) -> None:
    """Has the program check the proof that stands in a folder, and notes what it says, and of which files."""
    write_json(place, answer_or_fault(lambda: checked_of(program, solved, limits), is_last))


def answer_of_solve(solved: str) -> Answer:
    """Returns the answer that stands in the folder of a solution, or raises Fault where it isn't whole."""
    try:
        return answer_in(os.path.join(solved, ANSWER))
    except Torn as error:
        raise Fault(f"{error}: {solved}") from error


def checked_of(program: str, solved: str, limits: Limits) -> Answer:
    """Returns what a check of a folder's proof says, and of which files; or nothing, where there is none."""
    answer = answer_of_solve(solved)
    if "solved" not in answer:
        return {}
    sums = sums_of(solved)
    ran = run(program, ["check", *answer["reading"], solved], limits)
    return {"told": ran.told, "seconds": ran.seconds, "memory": ran.memory, "sums": sums}


def answer_or_fault(call: Callable[[], Answer], is_last: bool) -> Answer:
    """Returns what a call answers. At the last try a fault is an answer."""
    try:
        return call()
    except Fault as error:
        if not is_last:
            raise
        return {"fault": str(error)}


def sums_of(place: str) -> Dict[str, str]:
    """Returns the sums of the files that a check reads, of those that stand there."""
    paths = {name: os.path.join(place, name) for name in CLAIMED}
    return {name: sum_of(path) for name, path in paths.items() if os.path.lexists(path)}


def sum_of(path: str) -> str:
    """Returns the sha256 of a file's bytes, which are read by parts, or raises OSError."""
    found = hashlib.sha256()
    with open(path, "rb") as it:
        for part in iter(lambda: it.read(PART), b""):
            found.update(part)
    return found.hexdigest()


def draw(solved: str, name: str, place: str, is_last: bool) -> None:
    """Makes the folder of the picture, which stays empty where there is no plan, and has the fault at the last try."""
    with new_folder(place) as beside:
        try:
            picture(solved, name, beside)
        except Fault as error:
            if not is_last:
                raise
            write(os.path.join(beside, FAULT), str(error))


def picture(solved: str, name: str, beside: str) -> None:
    """Draws the plan of a solution into a folder, where there is one, or raises Fault."""
    answer = answer_of_solve(solved)
    if answer.get("status") not in (0, 3):
        return
    # The page is called by its folder.
    own = os.path.join(beside, name)
    os.mkdir(own)
    for it in (*tables_in(solved), "plan.csv", "proof.txt", "rotation.csv"):
        shutil.copyfile(os.path.join(solved, it), os.path.join(own, it))
    words = [os.path.join(TOP, "tools", "draw"), own, *answer["reading"]]
    ran = subprocess.run([sys.executable, *words], stdin=subprocess.DEVNULL, stderr=subprocess.PIPE, check=False)
    if not ran.returncode:
        os.rename(os.path.join(own, "plan.html"), os.path.join(beside, "plan.html"))
    shutil.rmtree(own)
    if ran.returncode:
        raise Fault(ran.stderr.decode("utf-8", "backslashreplace").strip())
