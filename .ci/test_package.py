"""The package for programs that call this one: schedules read and written, calls, faults, and the example of docs/python.md.

Calls are tried on a stand-in for the program, which prints what a row says and notes its words; the example runs on the program in a
scratch folder with tools/ and examples/."""

import datetime
import os
import re
import shutil
import subprocess
import sys
import tempfile
from pathlib import Path
from typing import Any, Callable, Dict, List, Sequence, Tuple

import fleetplan
import pytest
from breaking import MEMORY
from fleetplan.files import write_all
from fleetplan.program import program as found_program
from fleetplan.records import text_of
from fleetplan.tables import HEADERS, LIMITED
from fleetplan.times import clock
from hypothesis import given, strategies as st

TOP = Path(__file__).resolve().parent.parent
PAGE = TOP / "docs" / "python.md"
DATE = datetime.date(2026, 11, 30)
# What schedules are read by, where it is more than their tables.
READING: Dict[str, Dict[str, Any]] = {
    "week": {"period": 7}, "two-days": {"period": 2, "day_start": "00:00"}, "re-timing": {"windows": True},
    "ferry": {"optional": True}, "optional-flight": {"optional": True},
}  # fmt: skip
SOLVED = (
    '{"bound":"140","cost":"140","fleets":[{"has":1,"name":"F1","used":1},{"has":1,"name":"F2","used":1},{"has":1,"name":"F3","used":1}],'
    '"open":{"grew":0,"nodes":0,"pivots":0},"outcome":"optimal","rotations":["tour of 2 legs in 1 days","none","none"],"splits":2}\n'
)
# Calls on the folder DIR: what is called, the words that the program gets, what it prints, its status, and what comes.
Row = Tuple[Callable[[str], object], str, str, int, object]
ANSWERS: Sequence[Row] = (
    (lambda it: fleetplan.judge(it), "judge -- DIR", "legal: cost -7\nfleet F1: used 1 of 2\nfleet F2: used 0 of 1\n", 0, (-7, {"F1": 1, "F2": 0})),
    (lambda it: fleetplan.judge(it, period=7, windows=True, optional=False), "judge --period=7 --windows -- DIR", "legal: cost 0\n", 0, (0, {})),
    (lambda it: fleetplan.check(it, day_start="00:00"), "check --day-start=00:00 -- DIR", "holds: cost 5 bound 4\n", 0, (False, 4, 5)),
    (lambda it: fleetplan.check(it), "check -- DIR", "holds: bound -4\n", 0, (False, -4, None)),
    (lambda it: fleetplan.check(it), "check -- DIR", "holds: infeasible\n", 0, (True, None, None)),
    (lambda it: fleetplan.whatif(it, "F1", 3), "whatif -- DIR F1 3", "whatif F1 3: bound 4\n", 0, (False, 4, None)),
    (lambda it: fleetplan.whatif(it, "F1", 0), "whatif -- DIR F1 0", "whatif F1 0: infeasible\n", 0, (True, None, None)),
    (
        lambda it: fleetplan.tails(it, DATE, 2, days=4), "tails --days=4 -- DIR 2026-11-30 2",
        "2026-11-30 F1/1: X1 X2\n2026-12-01 F1/1: -\nF2: unused\n", 0,
        [(DATE, "F1/1", ["X1", "X2"]), (DATE + datetime.timedelta(1), "F1/1", [])],
    ),
    (lambda it: fleetplan.due(it, DATE, 1), "due -- DIR 2026-11-30 1", "2026-11-30 DAFPA: FP3\n", 0, [(DATE, "DAFPA", ["FP3"])]),
)  # fmt: skip
# What a call prints with a status, and what is raised then: its name, file, record and kind.
FAULTS = (
    ("usage: fleetplan judge|solve DIR [options]", 2, ("Refused", None, None, None)),
    ("bad input: legs.csv record 4 kind 7", 6, ("Refused", "legs.csv", 4, 7)),
    ("fault: proof.txt", 7, ("Fault", "proof.txt", None, None)),
    ("", 8, ("Fault", None, None, None)),
    ("plan refused: record 2 kind 3", 9, ("Refused", "plan.csv", 2, 3)),
    ("proof refused: line 5 kind 6", 9, ("Refused", "proof.txt", 5, 6)),
    ("not allowed: X1", 9, ("Refused", None, None, None)),
    ("unknown fleet: F9", 9, ("Refused", None, None, None)),
    ("broken: node 2 rule 6", 9, ("Broken", None, 2, 6)),
    ("F1: tails 3 of 4", 10, ("Refused", None, None, None)),
    ("fallen: node 3", 11, ("Broken", None, 3, None)),
    ("", 139, ("Fault", None, None, None)),
)
# A table that doesn't read, and where that is told.
UNREAD = (("legs.csv", "flight\n", ("legs.csv", 1, None)), ("fleets.csv", "fleet,aircraft,turn\nF1,x,1\n", ("fleets.csv", 2, "aircraft")))
# What the example prints that an outside computation tells too: bench/others.py finds both costs.
KNOWN = ["optimal 305420 {'A320': 5, 'A220': 3, 'E190': 4}", "optimal 306070 650", "True"]


EXAMPLES = {it.parent.name: it.parent for it in sorted((TOP / "examples").glob("*/legs.csv"))}


@pytest.mark.parametrize("name", EXAMPLES)
def test_written_and_read(name: str, scratch: Path) -> None:
    """What is written is what was read, and each record of a table stands there."""
    reading = READING.get(name, {})
    read = fleetplan.Schedule.read(str(EXAMPLES[name]), **reading)
    read.write(str(scratch / name))
    assert fleetplan.Schedule.read(str(scratch / name), **reading).rows() == read.rows()
    for table, (header, rows) in read.rows().items():
        kept = sorted(",".join(it) for it in [list(header), *rows])
        # A throughs.csv may be empty.
        assert kept == (sorted((EXAMPLES[name] / table).read_text(encoding="utf-8").splitlines()) or kept[-1:]), table


def test_changed() -> None:
    """What is changed of a schedule stands in its tables."""
    schedule = fleetplan.Schedule.read(str(TOP / "examples" / "re-timing"), windows=True)
    del schedule.legs["FP2"]
    schedule.aircraft["A320"] += 2
    schedule.parking = {next(iter(schedule.extra)): 1}
    lines = {name: [",".join(it) for it in [list(header), *rows]] for name, (header, rows) in schedule.rows().items()}
    assert not [it for own in lines.values() for it in own if "FP2" in it.split(",")]
    assert lines["fleets.csv"][1].split(",")[1] == "3"
    assert [it.rpartition(",")[2] for it in lines["stations.csv"]] == ["parking", "1", *["-"] * (len(schedule.extra) - 1)]


@pytest.mark.parametrize("table, text, where", UNREAD, ids=[it[0] for it in UNREAD])
def test_unread(table: str, text: str, where: Tuple[object, ...], scratch: Path) -> None:
    """A table that doesn't read is told by its place."""
    shutil.copytree(TOP / "examples" / "split", scratch / "bad")
    (scratch / "bad" / table).write_text(text, encoding="ascii")
    with pytest.raises(fleetplan.Unread) as error:
        fleetplan.Schedule.read(str(scratch / "bad"))
    assert (os.path.basename(error.value.file or ""), error.value.record, error.value.column) == where


def stand_in(folder: Path, text: str, status: int, patch: pytest.MonkeyPatch) -> None:
    """Lays a program that notes its words, prints a text and ends with a status."""
    (folder / "said").write_text(text, encoding="ascii")
    patch.setenv("FLEETPLAN", str(laid(folder, f'echo "$*" > {folder}/words\ncat {folder}/said\nexit {status}')))


def laid(folder: Path, script: str) -> Path:
    """Lays a program that a script of sh answers for."""
    program = folder / "program"
    program.write_text(f"#!/bin/sh\n{script}\n", encoding="ascii")
    program.chmod(0o755)
    return program


@pytest.mark.parametrize("call, words, text, status, wanted", ANSWERS, ids=[f"{it[1]}: {it[2].splitlines()[0]}" for it in ANSWERS])
def test_answer(
    call: Callable[[str], object], words: str, text: str, status: int, wanted: object, tmp_path: Path, monkeypatch: pytest.MonkeyPatch
) -> None:
    """The program gets these words, and this comes of what it prints."""
    stand_in(tmp_path, text, status, monkeypatch)
    came = call("DIR")
    assert ((tmp_path / "words").read_text(encoding="ascii").strip(), came) == (words, wanted)


@pytest.mark.parametrize("text, status, raised", FAULTS, ids=[f"{it[1]} {it[0]}" for it in FAULTS])
def test_fault(text: str, status: int, raised: Tuple[Any, ...], tmp_path: Path, monkeypatch: pytest.MonkeyPatch) -> None:
    """Another answer raises its error, with its place."""
    stand_in(tmp_path, f"{text}\n", status, monkeypatch)
    with pytest.raises(fleetplan.Answered) as found:
        fleetplan.check("DIR")
    error = found.value
    assert (type(error).__name__, error.file, error.record, error.kind, error.status, str(error)) == (*raised, status, text)


@pytest.mark.parametrize("name", ["fly", "nodes"])
def test_no_option(name: str) -> None:
    """An option that the command hasn't is a fault of the caller."""
    with pytest.raises(TypeError):
        fleetplan.judge("DIR", None, **{name: 1})


# Programs that take too much, by what limit, and what is told of it.
TOO_MUCH: Sequence[Tuple[str, Dict[str, Any], str]] = (
    ("exec sleep 6", {"seconds": 0.5}, "doesn't end in time"),
    ("exec sleep 6", {"seconds": 1, "is_measured": True}, "doesn't end in time"),
    ("yes", {"printed": 1000}, "prints more than 1000 bytes"),
    ("yes >&2", {}, "tells more than 1048576 bytes"),
)


@pytest.mark.parametrize("script, limits, why", TOO_MUCH, ids=[f"{it[2]} {len(it[1])}" for it in TOO_MUCH])
def test_limits(script: str, limits: Dict[str, Any], why: str, tmp_path: Path) -> None:
    """A call that takes too much is ended, and is a fault."""
    program = laid(tmp_path, script)
    with pytest.raises(fleetplan.Fault) as found:
        fleetplan.judge("DIR", fleetplan.Runner(program, **limits))
    assert (str(found.value), found.value.status) == (f"{program} judge {why}", 0)


@pytest.mark.parametrize("is_measured", [False, True])
def test_run(is_measured: bool, tmp_path: Path) -> None:
    """What a call came to: what it printed and told, its status, and what it took."""
    heard: List[str] = []
    program = laid(tmp_path, 'echo "$1"; printf "one\\r\\ntwo" >&2; ulimit -v; exit 3')
    ran = fleetplan.Runner(program, memory=900, is_measured=is_measured, hear=heard.append).run("a b")
    assert (ran.status, ran.text, ran.told, heard) == (3, f"a b\n{900 * 1024}\n", b"one\r\ntwo", ["one", "two"])
    assert ran.elapsed > 0 and ran.seconds >= 0 and (ran.peak > 100_000) is is_measured


def test_no_program(scratch: Path, monkeypatch: pytest.MonkeyPatch) -> None:
    """A file that can't be run isn't called."""
    (scratch / "words").write_text("", encoding="ascii")
    monkeypatch.setenv("FLEETPLAN", str(scratch / "words"))
    assert not found_program().startswith(str(scratch))


def test_solution(tmp_path: Path, monkeypatch: pytest.MonkeyPatch) -> None:
    """What is read of a solution: the files that stand in the folder."""
    own: Path = shutil.copytree(TOP / "examples" / "split", tmp_path / "split")
    stand_in(tmp_path, SOLVED, 0, monkeypatch)
    found = fleetplan.solve(str(own), day_start="00:00", nodes=20)
    plan = dict(it.split(",") for it in (own / "plan.csv").read_text(encoding="ascii").splitlines()[1:])
    assert (tmp_path / "words").read_text(encoding="ascii").strip() == f"solve --day-start=00:00 --nodes=20 --json -- {own}"
    came = found.outcome, found.cost, found.bound, found.splits, found.used, found.plan
    assert came == ("optimal", 140, 140, 2, {"F1": 1, "F2": 1, "F3": 1}, plan)
    tours = {it.fleet: [flown.leg.flight for flown in it.tour] for it in found.rotations}
    rows = [it.split(",") for it in (own / "rotation.csv").read_text(encoding="ascii").splitlines()[1:]]
    assert tours == {fleet: [a for of, _, kind, a, _ in rows if (of, kind) == (fleet, "leg")] for fleet in tours}


@pytest.mark.parametrize("name", ["hub-day", "week", "re-timing"])
def test_frames(name: str, scratch: Path) -> None:
    """Frames of pandas have the tables, and what is changed there stands in what is written."""
    reading = READING.get(name, {})
    schedule = fleetplan.Schedule.read(str(EXAMPLES[name]), **reading)
    tables = fleetplan.frames(schedule)
    assert {it: (tuple(own.columns), own.values.tolist()) for it, own in tables.items()} == schedule.rows()
    tables["fleets.csv"].loc[0, "aircraft"] = 7
    fleetplan.write_frames(str(scratch / "new"), tables)
    schedule.aircraft[next(iter(schedule.aircraft))] = 7
    assert fleetplan.Schedule.read(str(scratch / "new"), **reading).rows() == schedule.rows()


# Names of stations, fleets and flights, and costs, as tables may have them.
CODES, NAMES = st.from_regex("[A-Z]{3}", fullmatch=True), st.from_regex("[A-Z0-9]{1,8}", fullmatch=True)
COSTS, VALUES = st.integers(-(10**12), 10**12), st.integers(0, 10**12)


@st.composite
def drawn(draw: Any, folder: Path) -> fleetplan.Schedule:
    """A schedule of any names and numbers that tables may have."""
    station = st.tuples(st.integers(0, 600), st.sampled_from(["yes", "no"]), st.sampled_from(["-", "0", "10000"]))
    stations = draw(st.dictionaries(CODES, station, min_size=2, max_size=4))
    fleets = draw(st.dictionaries(NAMES, st.tuples(st.integers(0, 500), st.integers(0, 600)), min_size=1, max_size=3))
    minutes = st.integers(0, 1439).map(clock)
    ways = st.permutations(sorted(stations)).map(lambda it: it[:2])
    legs = draw(st.dictionaries(NAMES, st.tuples(ways, st.lists(minutes, min_size=2, max_size=2, unique=True)), max_size=4))
    costs = {(leg, fleet): draw(COSTS) for leg in legs for fleet in fleets if draw(st.booleans())}
    write_all(str(folder), {
        "stations.csv": text_of(LIMITED, [(it, *own) for it, own in stations.items()]),
        "fleets.csv": text_of(HEADERS["fleets.csv"], [(it, *own) for it, own in fleets.items()]),
        "legs.csv": text_of(HEADERS["legs.csv"], [(it, way[0], at[0], way[1], at[1]) for it, (way, at) in legs.items()]),
        "costs.csv": text_of(HEADERS["costs.csv"], [(*it, cost) for it, cost in costs.items()]),
        "throughs.csv": text_of(HEADERS["throughs.csv"], [(*it, draw(VALUES)) for it in zip(legs, list(legs)[1:])]),
    })  # fmt: skip
    return fleetplan.Schedule.read(str(folder))


@given(st.data())
def test_any_schedule(data: st.DataObject) -> None:
    """What is read of a schedule is what is written of it, with any names, times and numbers."""
    with tempfile.TemporaryDirectory(dir=MEMORY) as place:
        schedule = data.draw(drawn(Path(place)))
        schedule.write(f"{place}/new")
        again = fleetplan.Schedule.read(f"{place}/new")
        assert again.rows() == schedule.rows()
        for name in ("fleets.csv", "legs.csv", "costs.csv", "throughs.csv"):
            assert Path(place, name).read_text(encoding="ascii") == Path(place, "new", name).read_text(encoding="ascii")


def test_page(program: Path, tmp_path: Path) -> None:
    """The example of docs/python.md prints what stands there, also what is known of it, and draws."""
    code, printed = re.findall(r"```(?:python)?\n(.*?)```", PAGE.read_text(encoding="utf-8"), re.DOTALL)[:2]
    for it in ("tools", "examples"):
        shutil.copytree(TOP / it, tmp_path / it)
    where = {**os.environ, "FLEETPLAN": str(program), "PYTHONPATH": str(tmp_path / "tools"), "PYTHONDONTWRITEBYTECODE": "1"}
    words, pipe = [sys.executable, "-c", code], subprocess.PIPE
    ran = subprocess.run(words, cwd=tmp_path, env=where, stdout=pipe, stderr=pipe, text=True, check=False)
    assert (ran.returncode, ran.stdout) == (0, printed)
    assert ran.stdout.splitlines()[: len(KNOWN)] == KNOWN
    assert (tmp_path / "after" / "plan.html").is_file(), ran.stderr


def test_alone(scratch: Path) -> None:
    """The package stands alone, as it is installed, and has all names that it says."""
    shutil.copytree(TOP / "tools" / "fleetplan", scratch / "alone" / "fleetplan")
    types = "*[type(getattr(fleetplan, it)).__name__ for it in fleetplan.__all__]"
    code = f"import sys; sys.path.insert(0, {str(scratch / 'alone')!r}); import fleetplan; print({types})"
    ran = subprocess.run([sys.executable, "-IBc", code], stdout=subprocess.PIPE, stderr=subprocess.STDOUT, text=True, check=False)
    assert (ran.returncode, len(ran.stdout.split())) == (0, len(fleetplan.__all__)), ran.stdout
    assert not set(re.findall(r"`(\w+)\(", PAGE.read_text(encoding="utf-8"))) - {*fleetplan.__all__, "write"}
