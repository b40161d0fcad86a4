"""Runs rows on a built program, and compares output, status, and all that stands then."""

import os
import tempfile
from pathlib import Path
from typing import Dict, List, NamedTuple, Optional, Tuple

from fleetplan.program import BESIDE, Runner, TooLate
from row_runs.reading import Row, Step
from row_runs.texts import Wanted

FOLDER = "d"
SECONDS = 120
# What is longer is told by its beginning.
MOST_SHOWN = 2000


class Seen(NamedTuple):
    """What a call put, its status, and what stands then."""

    output: bytes
    status: int
    files: Dict[str, bytes]


def standing(scratch: str) -> Dict[str, bytes]:
    """Returns the bytes of all files below a folder by their paths; a folder's path ends with a slash, and has no bytes."""
    files = {}
    for where, folders, names in os.walk(scratch):
        for name in folders:
            files[os.path.relpath(os.path.join(where, name), scratch) + "/"] = b""
        for name in names:
            path = os.path.join(where, name)
            files[os.path.relpath(path, scratch)] = Path(path).read_bytes()
    return files


def call(program: str, step: Step, scratch: str) -> Seen:
    """Makes a call in a folder."""
    name, *words = step.words
    ran = Runner(name, SECONDS, executable=program, cwd=scratch, env={"LANG": "C.UTF-8"}, stderr=BESIDE).run(*words)
    return Seen(ran.printed, ran.status, standing(scratch))


def shown(text: bytes) -> str:
    """Returns bytes as they are told."""
    told = text.decode("utf-8", "backslashreplace")
    return told if len(told) <= MOST_SHOWN else f"{told[:MOST_SHOWN]} .. ({len(text)} bytes)\n"


def files_after(step: Step, before: Dict[str, bytes]) -> Dict[str, Wanted]:
    """Returns what has to stand after a call: what it leaves, and all else as it was."""
    after = {name: Wanted(True, True, text) for name, text in before.items()}
    after.update({f"{FOLDER}/{name}": text for name, text in step.leaves.items()})
    return after


def faults_of(step: Step, before: Dict[str, bytes], seen: Seen) -> List[str]:
    """Returns how what was seen differs from what is wanted."""
    faults = []
    if seen.status != step.status:
        faults.append(f"status {seen.status}, wanted {step.status}")
    if not step.output.is_met_by(seen.output):
        faults.append(f"printed:\n{shown(seen.output)}wanted:\n{shown(step.output.text)}")
    after = files_after(step, before)
    for name in sorted(after.keys() | seen.files.keys()):
        if name not in seen.files or name not in after:
            faults.append(f"{name} {'stands' if name in seen.files else 'does not stand'} there")
        elif not after[name].is_met_by(seen.files[name]):
            faults.append(f"{name} holds:\n{shown(seen.files[name])}wanted:\n{shown(after[name].text)}")
    return faults


def run_once(program: str, row: Row) -> Tuple[List[Seen], List[str]]:
    """Runs the calls of a row in a folder of its own, and returns what was seen and what is wrong."""
    all_seen: List[Seen] = []
    faults: List[str] = []
    with tempfile.TemporaryDirectory(prefix="fleetplan-row-") as scratch:
        os.mkdir(os.path.join(scratch, FOLDER))
        for name, text in row.files.items():
            if text is not None:
                Path(scratch, FOLDER, name).write_bytes(text.bytes())
        before = standing(scratch)
        for step in row.steps:
            seen = call(program, step, scratch)
            faults += faults_of(step, before, seen)
            all_seen.append(seen)
            before = seen.files
    return all_seen, faults


def try_row(program: str, row: Row) -> Optional[str]:
    """Runs a row on a program, and returns what is wrong, or None."""
    try:
        first, faults = run_once(program, row)
        if row.is_twice and not faults and run_once(program, row)[0] != first:
            faults.append("a second run put or left something else")
    except TooLate:
        faults = [f"it had not ended after {SECONDS} seconds"]
    except OSError as error:
        faults = [str(error)]
    return "\n".join([row.place, *faults]) if faults else None
