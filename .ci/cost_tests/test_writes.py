"""All files or none: writes that fail, a process that is killed in the midst of them, and what a call leaves alone."""

import os
import subprocess
import sys
from functools import partial
from pathlib import Path
from typing import Dict, Tuple

import pytest

from breaking import failing, full, interrupt, killed, small_files
from cost_tests.calling import TOP, WRITTEN, call, standing
from cost_tests.days import COSTS, DAY, lay

OTHER = DAY["fuel.csv"].replace("800", "900")
FULL = "can't be written: No space left on device"


def whole(folder: Path, **changed: str) -> Dict[str, bytes]:
    """Returns what a call writes into a new folder of the name of another one, so that the page has the same name."""
    place = folder / "whole" / "day"
    place.parent.mkdir(exist_ok=True)
    call(lay(place, **changed))
    return {it: standing(place)[it] for it in WRITTEN}


STEPS = [(name, number) for name in ("chmod", "replace") for number in (1, 2, 3)]
# Where an older costs.csv stands it is put aside first.
OLDER = [*STEPS, ("replace", 4)]


@pytest.mark.parametrize("name, number, is_new", [*((*it, True) for it in STEPS), *((*it, False) for it in OLDER)])
def test_failing(name: str, number: int, is_new: bool, scratch: Path) -> None:
    """Each step of a write fails once: all stands as it was, whether older files stood there or none, and nothing is left beside."""
    folder = lay(scratch / "day")
    if not is_new:
        call(folder)
    (folder / "fuel.csv").write_text(OTHER, encoding="ascii")
    before = standing(folder)
    with failing(name, number, full):
        assert call(folder) == (7, [f"{folder} {FULL}"])
    assert standing(folder) == before
    assert call(folder).status == 0
    assert {it: standing(folder)[it] for it in WRITTEN} == whole(scratch, fuel=OTHER)


@pytest.mark.parametrize("name, number", STEPS)
def test_interrupted(name: str, number: int, scratch: Path) -> None:
    """At a Ctrl-C too all stands as it was."""
    folder = lay(scratch / "day")
    before = standing(folder)
    with failing(name, number, interrupt), pytest.raises(KeyboardInterrupt):
        call(folder)
    assert standing(folder) == before


# Of each step at which a process is killed the files that are new then, and whether costs.csv stands there.
KILLED = [
    *((("chmod", number), 0, True) for number in (1, 2, 3)),
    (("replace", 1), 0, True), (("replace", 2), 0, False), (("replace", 3), 1, False), (("replace", 4), 2, False),
]  # fmt: skip


@pytest.mark.parametrize("step, count, has_costs", KILLED)
def test_killed(step: Tuple[str, int], count: int, has_costs: bool, scratch: Path) -> None:
    """A process that is killed leaves all files as they were, or each of them whole, an older one or a new one, and no costs.csv, without which no
    call reads the others. The next call makes all anew."""
    folder = lay(scratch / "day")
    call(folder)
    before = standing(folder)
    (folder / "fuel.csv").write_text(OTHER, encoding="ascii")
    new = whole(scratch, fuel=OTHER)
    assert killed(*step, partial(call, folder))
    after = standing(folder)
    wanted = {it: new[it] if at < count else before[it] for at, it in enumerate(WRITTEN) if has_costs or it != "costs.csv"}
    assert {it: after[it] for it in WRITTEN if it in after} == wanted
    assert call(folder).status == 0
    assert {it: standing(folder)[it] for it in WRITTEN} == new


def test_a_disk_that_fills(scratch: Path) -> None:
    """A write that breaks off in the middle of a file: no part of it is left."""
    folder = lay(scratch / "day")
    before = standing(folder)
    with small_files(1000):
        assert call(folder) == (7, [f"{folder} can't be written: File too large"])
    assert standing(folder) == before


@pytest.mark.parametrize("name", [*WRITTEN, "optional.csv"])
def test_a_folder_in_a_files_place(name: str, scratch: Path) -> None:
    """Nothing is written where a folder has the name of a file."""
    folder = lay(scratch / "day")
    (folder / "skips").write_text("flight\n", encoding="ascii")
    (folder / name).mkdir()
    before = standing(folder)
    answer = call(folder, "--skips", folder / "skips")
    assert answer == (7, [f"{folder}/{name} can't be written: it is a folder"])
    assert standing(folder) == before


def test_what_a_call_leaves_alone(scratch: Path) -> None:
    """Only its own files are written, with the mode that they had."""
    folder = lay(scratch / "day", windows="flight,shift,extra\n", plan="flight,fleet\n", settings="word,value\nperiod,1\n")
    (folder / "optional.csv").write_text("flight,skip\nFP1,1\n", encoding="ascii")
    (folder / "costs.csv").write_text("mine\n", encoding="ascii")
    (folder / "costs.csv").chmod(0o640)
    before = standing(folder)
    assert call(folder).status == 0
    after = standing(folder)
    assert {it for it in after if after[it] != before.get(it)} == set(WRITTEN)
    assert (folder / "costs.csv").stat().st_mode & 0o777 == 0o640


def test_the_tool_itself(scratch: Path) -> None:
    """As a command, in a locale with a decimal comma: the same bytes, its help, and its status."""
    folder = lay(scratch / "day")
    tool = [sys.executable, str(TOP / "tools" / "costs")]
    more = {**os.environ, "LC_ALL": "de_DE.UTF-8", "LANG": "de_DE.UTF-8"}
    ran = subprocess.run([*tool, str(folder)], stdout=subprocess.PIPE, stderr=subprocess.PIPE, text=True, env=more, check=False)
    assert (ran.returncode, ran.stdout, ran.stderr) == (0, "", "costs: 4 legs, 2 fleets: 8 pairs may be flown\n")
    assert {it: standing(folder)[it] for it in WRITTEN} == whole(scratch)
    rows = [f"{pair},{cost}" for pair, cost in COSTS.items()]
    assert (folder / "costs.csv").read_text(encoding="ascii").splitlines() == ["flight,fleet,cost", *rows]
    ran = subprocess.run([*tool, "--help"], stdout=subprocess.PIPE, stderr=subprocess.PIPE, text=True, check=False)
    assert (ran.returncode, ran.stderr) == (0, "")
    assert ran.stdout.startswith("Makes costs of a planner's own figures")
    ran = subprocess.run([*tool, str(folder / "no")], stdout=subprocess.PIPE, stderr=subprocess.PIPE, text=True, check=False)
    assert (ran.returncode, ran.stderr) == (7, f"costs: {folder}/no/legs.csv can't be read: No such file or directory\n")
