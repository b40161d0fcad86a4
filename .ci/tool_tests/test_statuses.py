"""With which status each tool ends, and that it says why in one line; none of this asks the program."""

import os
import shutil
import subprocess
import sys
from pathlib import Path
from typing import Dict, List, Tuple

import pytest

TOP = Path(__file__).resolve().parent.parent.parent
START = ["--day-start", "00:00"]
# Of each call its words in a folder with a copy of an example (split), the status, and how the last line on standard error begins. A file
# `bad.csv` stands in the place of a table where the name of the call ends with that.
CALLS: Dict[str, Tuple[List[str], int, str]] = {
    "draw": (["draw", "split", *START], 0, ""),
    "draw without words": (["draw"], 2, "usage: tools/draw"),
    "draw with a wrong value": (["draw", "split", "--day-start", "24:00"], 2, "usage: tools/draw"),
    "draw without a folder": (["draw", "no"], 7, "tools/draw: no/stations.csv can't be read: No such file or directory"),
    "draw with a fleet of no flight": (["draw", "split", *START, "--svg", "F9"], 9, "tools/draw: split/plan.csv has no flight of F9"),
    "draw onto a folder": (["draw", "into-folder", *START], 7, "tools/draw: into-folder/plan.html can't be written: it is a folder"),
    "draw onto a device": (["draw", "into-device", *START], 7, "tools/draw: into-device/plan.html can't be written: it is no file"),
    "draw of bad legs.csv": (["draw", "split", *START], 6, "tools/draw: split/legs.csv doesn't begin with"),
    "draw of bad plan.csv": (["draw", "split", *START], 6, "tools/draw: split/plan.csv doesn't begin with"),
    "ssim without a file": (["ssim", "tables", "no", "day", "--date", "2026-11-30"], 7, "ssim: no can't be read: No such file or directory"),
    "ssim of a table": (["ssim", "tables", "split/legs.csv", "day", "--date", "2026-11-30"], 6, "ssim: split/legs.csv line 1: "),
    "costs without a folder": (["costs", "no"], 7, "costs: no/legs.csv can't be read: No such file or directory"),
    "costs without figures": (["costs", "split"], 7, "costs: split/demand.csv can't be read: No such file or directory"),
    "costs of bad legs.csv": (["costs", "split"], 6, "costs: split/legs.csv"),
    "completion": (["completion", "bash"], 0, ""),
    "completion of another shell": (["completion", "tcsh"], 2, "usage: tools/completion"),
    "table of no run": (["scenarios/table", "no"], 7, "tools/scenarios/table: no/summary.csv can't be read: No such file or directory"),
    "compare no runs": (["scenarios/compare", "no", "no"], 7, "tools/scenarios/compare: no/summary.csv can't be read: No such file"),
    "compare one run": (["scenarios/compare", "no"], 2, "usage: tools/scenarios/compare"),
    "a step of no tables": (["scenarios/step", "summary", "no.csv", "run", "no"], 1, "step summary: no.csv can't be read: No such file or directory"),
    "words that are a call": (["words", "./fleetplan", "solve", "split"], 1, ""),
    "words that are none": (["words", "./fleetplan", "solve"], 2, "  see docs/formats.md"),
    "words of help": (["words", "./fleetplan", "solve", "--help"], 0, ""),
    "words of bad settings.csv": (["words", "./fleetplan", "solve", "split"], 6, "  see docs/formats.md"),
    "release without a version": (["release"], 2, "usage: tools/release"),
    "build with a wrong word": (["build", "--no"], 2, "usage: tools/build"),
    "preview of no call": (["preview", "no"], 2, "  see docs/formats.md"),
    "hint of nothing": (["hint", "0", "", "./fleetplan", "solve", "split"], 0, ""),
}  # fmt: skip


@pytest.mark.parametrize("name", CALLS)
def test_status(name: str, scratch: Path) -> None:
    """A call ends so, and writes nothing where it fails."""
    for place in ("split", "into-folder", "into-device"):
        shutil.copytree(TOP / "examples" / "split", scratch / place)
    (scratch / "into-folder" / "plan.html").mkdir()
    (scratch / "into-device" / "plan.html").symlink_to("/dev/null")
    if " bad " in name:
        (scratch / "split" / name.rpartition(" ")[2]).write_text("no,such,table\n", encoding="ascii")
    words, status, begins = CALLS[name]
    before = sorted(str(it) for it in scratch.rglob("*"))
    where = {**os.environ, "PYTHONDONTWRITEBYTECODE": "1", "FLEETPLAN_HINTS": "1", "FLEETPLAN": "/nowhere"}
    command = [sys.executable, str(TOP / "tools" / words[0]), *words[1:]]
    ran = subprocess.run(command, cwd=scratch, env=where, stdin=subprocess.DEVNULL, stdout=subprocess.PIPE, stderr=subprocess.PIPE, check=False)
    lines = ran.stderr.decode().splitlines()
    assert (ran.returncode, (lines or [""])[-1].startswith(begins)) == (status, True), (lines, ran.stdout)
    assert status == 0 or sorted(str(it) for it in scratch.rglob("*")) == before


def test_unsolved(scratch: Path) -> None:
    """A summary in which a scenario wasn't solved fails its step."""
    (scratch / "scenarios.csv").write_text("scenario,words,folder,changes\na,,,\n", encoding="ascii")
    command = [sys.executable, "-B", str(TOP / "tools" / "scenarios" / "step"), "summary", "scenarios.csv", "scenarios", "no"]
    ran = subprocess.run(command, cwd=scratch, stdin=subprocess.DEVNULL, stdout=subprocess.PIPE, stderr=subprocess.PIPE, check=False)
    assert (ran.returncode, b"DON'T RELY ON 1 OF THE SCENARIOS" in ran.stderr) == (1, True), ran.stderr
    assert "NOT SOLVED" in (scratch / "summary.csv").read_text(encoding="utf-8")
