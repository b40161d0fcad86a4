"""Writes that fail, and a program that doesn't judge: each file stands whole, as it was or as it should be, and nothing beside it."""

import os
import shutil
from functools import partial
from typing import Optional, Tuple
from unittest import mock

from pathlib import Path

import pytest
from breaking import failing, interrupt, killed, small_files
from ssim_tests.trying import EXAMPLE, call, standing

DATE = "2026-11-30"
FILE = EXAMPLE / "season.ssim"
# The files that `tables` writes.
COUNT = 7


def tables(folder: Path, *words: object, fleets: bool = True) -> Tuple[int, str]:
    """Makes tables of the example."""
    given = ["--fleets", folder / "fleets"] if fleets else []
    return call("tables", FILE, folder / "day", "--date", DATE, *given, *words)


def lay(folder: Path) -> None:
    """Lays what tables are made with."""
    (folder / "fleets").write_text("fleet,aircraft,turn\n223,9,30\n320,9,30\n333,9,30\nE90,9,30\n", encoding="ascii")


# The steps of a write, each by its call of os and the number of that; `rename` is a new folder's alone.
STEPS = [(name, number) for name in ("chmod", "replace") for number in range(1, COUNT + 1)]
NEW_OR_OLD = [*((*it, is_new) for it in STEPS for is_new in (True, False)), ("rename", 1, True)]


@pytest.mark.parametrize("name, number, is_new", NEW_OR_OLD)
def test_failing(name: str, number: int, is_new: bool, scratch: Path) -> None:
    """Each step of a write fails once, in a new folder and in one that holds older tables."""
    lay(scratch)
    if not is_new:
        tables(scratch, "--types", "E90")
    before = standing(scratch / "day")
    with failing(name, number):
        assert tables(scratch) == (7, f"ssim: {scratch}/day can't be written: No space left on device\n")
    after, wanted = standing(scratch / "day"), before
    assert not [it for it in os.listdir(scratch) if it not in ("fleets", "day")]
    if name == "replace" and not is_new:
        tables(scratch)
        whole = standing(scratch / "day")
        wanted = {it: whole[it] if after[it] == whole[it] else before[it] for it in before}
    assert after == wanted


@pytest.mark.parametrize("name, number", [("chmod", 1), ("chmod", COUNT), ("replace", COUNT), ("rename", 1)])
def test_interrupted(name: str, number: int, scratch: Path) -> None:
    """After Ctrl-C in the midst of writing a new folder nothing is left of it."""
    lay(scratch)
    with failing(name, number, interrupt):
        assert tables(scratch) == (130, "")
    assert os.listdir(scratch) == ["fleets"]


@pytest.mark.parametrize("name, number, is_new", NEW_OR_OLD)
def test_killed(name: str, number: int, is_new: bool, scratch: Path) -> None:
    """A process that is killed at a step of writing tables: a new folder isn't there, and in an older one each file is an older one or a
    whole one. Unless all are of one call there is no legs.csv, so that the folder doesn't read."""
    lay(scratch)
    tables(scratch)
    whole = standing(scratch / "day")
    shutil.rmtree(scratch / "day")
    if not is_new:
        tables(scratch, "--types", "E90")
    before = standing(scratch / "day")
    assert killed(name, number, partial(tables, scratch))
    after = standing(scratch / "day")
    stand = after and {it: data for it, data in after.items() if not it.startswith(".")}
    put = {it for it, data in stand.items() if data != before[it]} if stand else set()
    is_mixed = name == "replace" and not is_new and number > 1
    assert stand == (before and {it: whole[it] if it in put else before[it] for it in before if it != "legs.csv" or not is_mixed})
    assert len(put) <= (number - 2 if is_mixed else 0)
    assert tables(scratch)[0] == 0
    assert {it: data for it, data in standing(scratch / "day").items() if not it.startswith(".")} == {**(stand or {}), **whole}


@pytest.mark.parametrize("before", [None, b"mine"])
@pytest.mark.parametrize("name", ["chmod", "replace"])
def test_killed_plan(name: str, before: Optional[bytes], scratch: Path) -> None:
    """A process that is killed as it writes a plan: the new file isn't there, or is the older one."""
    lay(scratch)
    tables(scratch)
    new = scratch / "new"
    if before:
        new.write_bytes(before)
    assert killed(name, 1, partial(call, "plan", FILE, scratch / "day", new))
    assert (new.read_bytes() if new.exists() else None) == before


def test_full(scratch: Path) -> None:
    """A write that breaks off in the middle of a file: no part of it is left."""
    lay(scratch)
    with small_files(1000):
        assert tables(scratch) == (7, f"ssim: {scratch}/day can't be written: File too large\n")
    assert os.listdir(scratch) == ["fleets"]


@pytest.mark.parametrize("before", [None, b"mine"])
def test_full_plan(before: Optional[bytes], scratch: Path) -> None:
    """The same of a plan that is written back."""
    lay(scratch)
    tables(scratch)
    new, plan = scratch / "new", scratch / "day" / "plan.csv"
    legs = [it.split(",")[0] for it in plan.read_text(encoding="ascii").splitlines()[1:]]
    plan.write_text("flight,fleet,shift\n" + "".join(f"{it},320,{at}\n" for at, it in enumerate(legs)), encoding="ascii")
    if before:
        new.write_bytes(before)
    with small_files(10_000):
        assert call("plan", FILE, scratch / "day", new) == (7, f"ssim: {new} can't be written: File too large\n")
    assert sorted(os.listdir(scratch)) == ["day", "fleets", *(["new"] if before else [])]
    assert not before or new.read_bytes() == before


def test_folder_in_a_tables_place(scratch: Path) -> None:
    """Nothing is written where a folder has the name of a table."""
    lay(scratch)
    (scratch / "day" / "costs.csv").mkdir(parents=True)
    before = standing(scratch / "day")
    assert tables(scratch) == (7, f"ssim: {scratch}/day/costs.csv can't be written: it is a folder\n")
    assert standing(scratch / "day") == before


def test_places_of_a_folder(scratch: Path) -> None:
    """A file that stands in the folder's place stays, and no folder is made above one."""
    lay(scratch)
    (scratch / "day").write_text("mine", encoding="ascii")
    assert tables(scratch)[0] == 7
    assert (scratch / "day").read_text(encoding="ascii") == "mine"
    assert call("tables", FILE, scratch / "no" / "day", "--date", DATE, "--fleets", scratch / "fleets")[0] == 7
    assert sorted(os.listdir(scratch)) == ["day", "fleets"]


def test_places_of_a_plan(scratch: Path) -> None:
    """A plan goes into a file of a folder that is there, also over the one that it is of, whole or not at all."""
    lay(scratch)
    tables(scratch)
    assert call("plan", FILE, scratch / "day", scratch / "day") == (7, f"ssim: {scratch}/day can't be written: it is a folder\n")
    line = f"ssim: {scratch}/no/season can't be written: its folder is missing\n"
    assert call("plan", FILE, scratch / "day", scratch / "no" / "season") == (7, line)
    assert not (scratch / "no").exists()
    new = scratch / "season"
    new.write_bytes(FILE.read_bytes())
    assert call("plan", new, scratch / "day", "--in-place")[0] == 0
    assert new.read_bytes() == FILE.read_bytes()
    with failing("replace", 1):
        assert call("plan", FILE, scratch / "day", new)[0] == 7
    assert (sorted(os.listdir(scratch)), new.read_bytes()) == (["day", "fleets", "season"], FILE.read_bytes())


JUDGED = ", it should judge the plan as filed"


@pytest.mark.parametrize("text, line", [
    (None, "can't be run: No such file or directory"),
    ("echo bad input: legs.csv record 1 kind 1; exit 6", f"judge ended with status 6: bad input: legs.csv record 1 kind 1{JUDGED}"),
    ("echo building >&2; exit 1", f"judge ended with status 1{JUDGED}"),
    ("echo legal: cost 0", f"judge ended with status 0: legal: cost 0{JUDGED}"),
    ("echo legal: cost 0; echo fleet F", f"judge ended with status 0: legal: cost 0{JUDGED}"),
], ids=["no program", "it refuses the tables", "it couldn't be built", "it forgets fleets", "it says something else"])  # fmt: skip
def test_program(text: Optional[str], line: str, tmp_path: Path) -> None:
    """A program that doesn't judge: nothing is written. It lies on a disk, for where memory holds files programs may not run."""
    program = tmp_path / "program"
    if text:
        program.write_text(f"#!/bin/sh\n{text}\n", encoding="ascii")
        program.chmod(0o755)
    lay(tmp_path)
    with mock.patch.dict(os.environ, FLEETPLAN=str(program)):
        came = tables(tmp_path, fleets=False)
    assert came == (7, f"{'building' + chr(10) if 'building' in str(text) else ''}ssim: {program} {line}\n")
    assert standing(tmp_path / "day") is None
