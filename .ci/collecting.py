"""The commands of pages and of files `expected`, and the rows of .ci/rows, as tests on the program of each compiler."""

from __future__ import annotations

import os
from concurrent.futures import Future, ThreadPoolExecutor
from functools import lru_cache, partial
from pathlib import Path
from typing import Any, Callable, Dict, Iterator, List, Optional

import pytest
from command_runs.reading import cases_of
from command_runs.running import Run, in_shell, in_terminal
from row_runs.reading import BadRows, Row, read_all
from row_runs.running import try_row

TOP = Path(__file__).resolve().parent.parent
OUT = TOP / "crates" / "fleetplan" / "out"


def programs(config: Any) -> List[Path]:
    """Returns the programs under test: those that are named, or what rt ci left, as each compiler built it. Where only one compiler takes
    the program, rt ci says so and leaves the other's out."""
    built = [OUT / "fleetplan", OUT / "fleetplan.by-rattle"]
    return [Path(it).resolve() for it in config.getoption("--program", None) or built[: 1 + built[1].is_file()]]


def lacking(program: Path) -> Optional[str]:
    """Returns that a program isn't there, where that is so."""
    if program.is_file() and os.access(program, os.X_OK):
        return None
    return f"there is no program {program}: --program=PATH names one, and `rt ci fleetplan` builds it"


class Wrong(Exception):
    """What is wrong, in lines."""


class Told(pytest.Item):
    """A test of which `fault` returns what is wrong, or None."""

    def __init__(self, *, fault: Callable[[], Optional[str]], line: int, **more: Any) -> None:
        super().__init__(**more)
        self.fault, self.line = fault, line

    def runtest(self) -> None:
        """Fails where something is wrong."""
        why = self.fault()
        if why:
            raise Wrong(why)

    def repr_failure(self, excinfo: Any, style: Any = None) -> Any:
        """Returns what is wrong, without the places of the code."""
        return str(excinfo.value) if isinstance(excinfo.value, Wrong) else super().repr_failure(excinfo, style)

    def reportinfo(self) -> Any:
        """Returns where the test stands."""
        return self.path, self.line - 1, self.name


class OnPrograms(pytest.File):
    """A file whose tests run on each program."""

    def collect(self) -> Iterator[Told]:
        """Yields its tests, or one that fails where there is no program."""
        for number, program in enumerate(programs(self.config)):
            lacks = lacking(program)
            if lacks:
                yield Told.from_parent(self, name=f"on {program.name}", fault=partial(str, lacks), line=1)
            else:
                try:
                    yield from self.on(program, f" [{program.name}]" if number else "")
                except (ValueError, BadRows) as bad:
                    raise self.CollectError(str(bad)) from bad

    def on(self, program: Path, mark: str) -> Iterator[Told]:
        """Yields its tests on a program, which have a mark behind their names."""
        raise NotImplementedError


class Commands(OnPrograms):
    """A page with commands, or a file `expected`. They run in their order, so those before a test are run with it."""

    def __init__(self, **more: Any) -> None:
        super().__init__(**more)
        self.runs: List[Run] = []

    def teardown(self) -> None:
        """Takes away what was laid."""
        for it in self.runs:
            it.end()

    def on(self, program: Path, mark: str) -> Iterator[Told]:
        """Yields its commands."""
        cases = cases_of(self.path)
        run = Run(cases, program, in_terminal if self.path.name == "expected-terminal" else in_shell)
        self.runs.append(run)
        for at, case in enumerate(cases):
            yield Told.from_parent(self, name=f"{case.line} {case.command}{mark}", fault=partial(run.fault, at), line=case.line)


class RowTest(Told):
    """A row. All that are to be run are, several side by side, when the first one is."""

    running: Dict[Told, Future[Optional[str]]] = {}

    def runtest(self) -> None:
        """Waits for its end."""
        if not self.running:
            pool = ThreadPoolExecutor(os.cpu_count())
            self.running.update({it: pool.submit(it.fault) for it in self.session.items if isinstance(it, RowTest)})
            self.session.config.add_cleanup(partial(pool.shutdown, cancel_futures=True))
        why = self.running[self].result()
        if why:
            raise Wrong(why)


@lru_cache(maxsize=None)
def all_rows() -> Dict[str, List[Row]]:
    """Returns the rows of all groups, by the paths of their files; or raises BadRows."""
    found: Dict[str, List[Row]] = {}
    for row in read_all(TOP / ".ci" / "rows"):
        found.setdefault(row.place.partition(":")[0], []).append(row)
    return found


class Rows(OnPrograms):
    """A file of rows."""

    def on(self, program: Path, mark: str) -> Iterator[Told]:
        """Yields its rows."""
        for row in all_rows().get(str(self.path.relative_to(TOP)), []):
            line, _, rest = row.place.partition(":")[2].partition(": ")
            yield RowTest.from_parent(self, name=f"{line} {rest}{mark}", fault=partial(try_row, str(program), row), line=int(line))
