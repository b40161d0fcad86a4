"""What all tests share: the program that they try, and the count of each part.

usage: /usr/bin/python3 -B -m pytest [--program=PATH ..] [--no-preview] [-k NAME] [FILE ..]

The tests stand in .ci: in files `test_*.py`, and in folders `*_tests` of such files. Tests are also the rows of .ci/rows, and the commands
of README.md, of docs/formats.md and of files `expected` (.ci/collecting.py). `.ci/run` calls all of them behind `rt ci`. setup.cfg has
pytest's settings. The last lines are `NAME: N passed, M failed`, one for each part: a file or a folder of tests. .ci/least has the least
number of each. A test that is skipped is told, and counts as neither."""

from __future__ import annotations

import os
import re
import tempfile
from collections import Counter
from pathlib import Path
from typing import Any, Iterator

import pytest
from breaking import MEMORY
from collecting import Commands, Rows, lacking, programs
from command_runs.reading import has_cases

TOP = Path(__file__).resolve().parent
# What pytest and hypothesis would keep in the clone goes elsewhere.
os.environ["HYPOTHESIS_STORAGE_DIRECTORY"] = os.path.join(tempfile.gettempdir(), "fleetplan-hypothesis")


def pytest_addoption(parser: Any) -> None:
    """Adds the word by which a program is named."""
    told = "the program under test, also several (else what rt ci left in crates/fleetplan/out, as each compiler built it)"
    parser.addoption("--program", metavar="PATH", action="append", help=told)
    parser.addoption("--no-preview", action="store_true", help="leaves out the one call that compiles the program without proofs")


def pytest_configure(config: Any) -> None:
    """Begins to count. The tools call the program under test, too."""
    os.environ["FLEETPLAN"] = str(programs(config)[0])
    settle_hypothesis()
    if not hasattr(config, "workerinput"):
        config.pluginmanager.register(Counts(config), "fleetplan-counts")


def pytest_collect_file(file_path: Path, parent: Any) -> Any:
    """Collects commands of pages and of files `expected`, and rows."""
    place = file_path.relative_to(TOP).as_posix()
    if has_cases(place):
        return Commands.from_parent(parent, path=file_path)
    return Rows.from_parent(parent, path=file_path) if re.fullmatch(r"\.ci/rows/[\w-]+\.txt", place) else None


def settle_hypothesis() -> None:
    """Has hypothesis try the same texts in each call, and keep nothing. Where it lacks, the tests that import it fail."""
    try:
        from hypothesis import settings
    except ImportError:
        return
    settings.register_profile("fleetplan", derandomize=True, database=None, deadline=None)
    settings.load_profile("fleetplan")


@pytest.fixture(scope="session")
def program(request: Any) -> Path:
    """The program under test. A test that asks for it fails where it isn't there."""
    found = programs(request.config)[0]
    lacks = lacking(found)
    if lacks:
        pytest.fail(lacks, pytrace=False)
    return found


@pytest.fixture
def scratch() -> Iterator[Path]:
    """An empty folder that goes afterwards. It lies in memory, where there is such a place: many small files are written."""
    with tempfile.TemporaryDirectory(prefix="fleetplan-", dir=MEMORY) as folder:
        yield Path(folder)


def part_of(place: str) -> str:
    """Returns the name of the part that a test belongs to: of its folder or its file below .ci, without `test`; `examples` for commands,
    and `terminal` for those in a terminal."""
    names = place.partition("::")[0].split("/")
    own = names[1] if names[0] == ".ci" and len(names) > 1 else "expected"
    return {"expected": "examples", "expected-terminal": "terminal"}.get(own, re.sub(r"^test_|_tests$", "", re.sub(r"\.py$", "", own)))


class Counts:
    """How many tests of each part passed and failed. What can't be read or prepared has failed."""

    def __init__(self, config: Any) -> None:
        self.config = config
        self.passed: Counter[str] = Counter()
        self.failed: Counter[str] = Counter()

    def pytest_runtest_logreport(self, report: Any) -> None:
        """Counts a test."""
        if report.failed:
            self.failed[part_of(report.nodeid)] += 1
        elif report.passed and report.when == "call":
            self.passed[part_of(report.nodeid)] += 1

    def pytest_collectreport(self, report: Any) -> None:
        """Counts a file that can't be read."""
        if report.failed:
            self.failed[part_of(report.nodeid)] += 1

    def pytest_unconfigure(self) -> None:
        """Prints the counts."""
        told = self.config.pluginmanager.getplugin("terminalreporter")
        for it in sorted({*self.passed, *self.failed}):
            told.write_line(f"{it}: {self.passed[it]} passed, {self.failed[it]} failed")
