""".ci/run, with commands in the place of rt and of pytest: its status is 0 only where each part passed and counted enough."""

import os
import shutil
from pathlib import Path
from typing import Dict, List, NamedTuple, Tuple

import pytest
from gate_tests.laying import TOP, Ended, lay, lay_command, run

# The parts of the tests, which are counted by pytest.
PARTS = ("lint", "more_of_it", "ssim")
LEAST = "# what is wanted\n" + "".join(f"{name} 3\n" for name in ("rt", *PARTS))
ALL = 4 + 3 * len(PARTS)
SUM = f"{ALL} passed, 0 failed"
CALLED = {"rt": "ci", "setup": "", "pytest": ""}
COUNTED = [f"{name}: 3 passed, 0 failed" for name in PARTS]


class Way(NamedTuple):
    """A way in which rt ends: what it does, and the last line and the status of .ci/run then."""

    does: str
    end: Tuple[str, int]


def says(line: str, status: int = 0) -> str:
    """Returns what a command does that prints a line and ends."""
    return f"echo '{line}'; exit {status}"


WAYS: Dict[str, Way] = {
    "prints nothing": Way("exit 0", ("0 passed, 1 failed", 1)),
    "prints nothing, and fails": Way("exit 7", ("0 passed, 1 failed", 7)),
    "counts nothing": Way(says("all is well"), ("0 passed, 1 failed", 1)),
    "counts some parts alone": Way(says("9 passed, 0 failed (low alone: not the gate)"), ("0 passed, 1 failed", 1)),
    "goes on after its count": Way("echo '9 passed, 0 failed'; echo", ("0 passed, 1 failed", 1)),
    "counts a failure": Way(says("9 passed, 2 failed"), ("9 passed, 2 failed", 1)),
    "counts a failure, and fails": Way(says("9 passed, 2 failed", 4), ("9 passed, 2 failed", 4)),
    "counts no failure, and fails": Way(says("9 passed, 0 failed", 5), ("9 passed, 1 failed", 5)),
    "has no case": Way(says("0 passed, 0 failed"), ("0 passed, 1 failed", 1)),
    "has too few cases": Way(says("2 passed, 0 failed"), ("2 passed, 1 failed", 1)),
    "tells of another": Way(says("other: 9 passed, 0 failed"), ("0 passed, 1 failed", 1)),
    "is ended by a signal": Way("echo '9 passed, 0 failed'; kill -9 $$", ("9 passed, 1 failed", 137)),
}
# Of each way in which pytest ends what it prints last, its status, and the last line and the status of .ci/run then.
TESTS: Dict[str, Tuple[List[str], int, Tuple[str, int]]] = {
    "has failed in one part": ([*COUNTED[:2], "ssim: 1 passed, 2 failed"], 1, (f"{ALL - 2} passed, 2 failed", 1)),
    "has failed in all, with a status of its own": ([f"{it}: 0 passed, 1 failed" for it in PARTS], 3, ("4 passed, 3 failed", 3)),
    "lacks a part": (COUNTED[:2], 0, (f"{ALL - 3} passed, 1 failed", 1)),
    "has too few in a part": ([*COUNTED[:2], "ssim: 2 passed, 0 failed"], 0, (f"{ALL - 1} passed, 1 failed", 1)),
    "has a part that isn't named": ([*COUNTED, "new: 5 passed, 0 failed"], 0, (f"{ALL + 5} passed, 1 failed", 1)),
    "tells a part before other lines": ([COUNTED[0], "", *COUNTED[1:]], 0, (f"{ALL - 3} passed, 1 failed", 1)),
    "goes on after its counts": ([*COUNTED, "more"], 0, ("4 passed, 3 failed", 1)),
    "isn't there": ([], 1, ("4 passed, 4 failed", 1)),
    "counts no failure, and fails": (COUNTED, 4, (f"{ALL} passed, 1 failed", 4)),
}
LEASTS = {
    "lacks a part": LEAST.replace("ssim 3\n", ""),
    "names one part more": f"{LEAST}more 3\n",
    "has no number": LEAST.replace("ssim 3", "ssim"),
    "has a number below 0": LEAST.replace("ssim 3", "ssim -1"),
    "is empty": "",
    "lacks rt": LEAST.replace("rt 3\n", ""),
}


@pytest.fixture
def top(scratch: Path) -> Path:
    """A repository in which each part passes."""
    lay(scratch, {".ci/least": LEAST, "crates.txt": "fleetplan:\n"})
    shutil.copytree(TOP / "tools" / "fleetplan", scratch / "tools" / "fleetplan", ignore=shutil.ignore_patterns("__pycache__"))
    for file in (".ci/run", ".ci/parts", "tools/machine.py"):
        shutil.copy2(TOP / file, scratch / file)
    lay_noting(scratch, scratch / "bin" / "rt", says("4 passed, 0 failed"))
    lay_noting(scratch, scratch / ".ci" / "setup", "exit 0")
    lay_tests(scratch, COUNTED)
    return scratch


def lay_noting(top: Path, file: Path, does: str) -> None:
    """Lays a command that notes its words, and what it hears of RT_JOBS."""
    lay_command(file, f'#!/bin/sh\necho "{file.name} $*|${{RT_JOBS:-}}" >> "{top}/called"\n{does}\n')


def lay_tests(top: Path, lines: List[str], status: int = 0) -> None:
    """Lays what stands in the place of pytest: it prints lines behind others, and ends with a status."""
    text = "import sys\nopen('called', 'a').write('pytest ' + ' '.join(sys.argv[1:]) + chr(10))\nprint('. [100%]')\n"
    lay(top, {"pytest.py": text + "".join(f"print({it!r})\n" for it in lines) + f"sys.exit({status})\n"})


def call(top: Path, *words: str, **names: str) -> Ended:
    """Calls .ci/run in a repository."""
    return run(top, "bash", ".ci/run", *words, PATH=f"{top / 'bin'}{os.pathsep}{os.environ['PATH']}", **names)


def end_of(ended: Ended) -> Tuple[str, int]:
    """Returns the last line and the status of a call."""
    return (ended.lines[-1] if ended.lines else "", ended.status)


def called(top: Path) -> Dict[str, str]:
    """Returns the words with which each part was called, and removes the notes."""
    if not (top / "called").exists():
        return {}
    lines = [line.partition("|")[0].split(" ", 1) for line in (top / "called").read_text(encoding="utf-8").splitlines()]
    (top / "called").unlink()
    return {line[0]: line[1] for line in lines}


def test_passes(top: Path) -> None:
    """Where all passes the counts are one, and rt is called first."""
    ended = call(top)
    assert end_of(ended) == (SUM, 0), ended
    assert list(called(top).items()) == list(CALLED.items())


@pytest.mark.parametrize("name", WAYS)
def test_rt(name: str, top: Path) -> None:
    """Where rt ci doesn't pass no test follows."""
    lay_noting(top, top / "bin" / "rt", WAYS[name].does)
    assert end_of(call(top)) == WAYS[name].end
    assert called(top) == {"rt": "ci"}


@pytest.mark.parametrize("name", TESTS)
def test_tests(name: str, top: Path) -> None:
    """Each part of the tests is counted, each that .ci/least names is there, and each that is there is named."""
    lines, status, wanted = TESTS[name]
    lay_tests(top, lines, status)
    assert end_of(call(top)) == wanted


def test_setup_fails(top: Path) -> None:
    """A setup that fails leaves it to the tests which packages they lack."""
    lay_noting(top, top / ".ci" / "setup", "echo lacks; exit 1")
    assert end_of(call(top)) == (SUM, 0)
    (top / ".ci" / "setup").unlink()
    assert end_of(call(top)) == (SUM, 0)


def test_no_rt(top: Path) -> None:
    """Where there is no rt that has failed."""
    plain = os.pathsep.join((os.path.dirname(shutil.which("python3") or ""), "/usr/bin", "/bin"))
    if shutil.which("rt", path=plain):
        pytest.skip("rt stands beside python3")
    assert end_of(run(top, shutil.which("bash") or "bash", ".ci/run", PATH=plain)) == ("0 passed, 1 failed", 127)


@pytest.mark.parametrize("name", LEASTS)
def test_least(name: str, top: Path) -> None:
    """.ci/least tells of each part. Where it can't be read nothing is run."""
    lay(top, {".ci/least": LEASTS[name]})
    if "one part more" in name:
        wanted = f"{ALL} passed, 1 failed"
    else:
        wanted = f"{ALL} passed, 1 failed" if name == "lacks a part" else "0 passed, 1 failed"
    assert end_of(call(top)) == (wanted, 1)
    assert bool(called(top)) == ("part" in name)


def test_no_least(top: Path) -> None:
    """Where .ci/least is missing nothing is run."""
    (top / ".ci" / "least").unlink()
    assert end_of(call(top)) == ("0 passed, 1 failed", 1)
    assert not called(top)


def test_surroundings(top: Path) -> None:
    """The surroundings of a call change nothing."""
    other = top / "other"
    for name in (".ci", ".ci/..", "tools"):
        (other / name).mkdir(parents=True, exist_ok=True)
    assert end_of(call(top, CDPATH=str(other))) == (SUM, 0)
    assert end_of(call(top, TMPDIR=str(top / "nowhere"))) == (SUM, 0)
    (top / "link").symlink_to(top / ".ci" / "run")
    path = f"{top / 'bin'}{os.pathsep}{os.environ['PATH']}"
    assert end_of(run(other, "../link", PATH=path)) == (SUM, 0)


def test_full_disk(top: Path) -> None:
    """No file can be written, as on a full disk: what is counted doesn't hang on one. A full output fails."""
    path = f"{top / 'bin'}{os.pathsep}{os.environ['PATH']}"
    lay_command(top / "bin" / "rt", f"#!/bin/sh\n{says('4 passed, 0 failed')}\n")
    lay_tests(top, [*COUNTED[:2], "ssim: 9 passed, 2 failed"], 1)
    ended = run(top, "sh", "-c", "ulimit -f 0; .ci/run | cat; exit 0", PATH=path)
    assert end_of(ended)[0] == f"{ALL + 6} passed, 2 failed"
    assert run(top, "sh", "-c", "ulimit -f 0; .ci/run > /dev/null", PATH=path).status == 1
    assert run(top, "sh", "-c", ".ci/run > /dev/full", PATH=path).status


def test_words(top: Path) -> None:
    """`no-preview` reaches the tests, and other words are refused before anything is run."""
    assert end_of(call(top, "no-preview")) == (SUM, 0)
    assert called(top) == {**CALLED, "pytest": "--no-preview"}
    for words in (["preview"], ["no-preview", "no-preview"], ["--anew"]):
        assert end_of(call(top, *words)) == ("", 2)
        assert not called(top)


@pytest.mark.parametrize("free, given, wanted", [(16.5, None, "3"), (16.4, None, ""), (16.5, "2", "2"), (16.4, "2", "2")])
def test_jobs(free: float, given: str, wanted: str, top: Path) -> None:
    """RT_JOBS is the number of the processors where there is memory for each, and else is left to rt. One that is set stays."""
    machine = (TOP / "tools" / "machine.py").read_text(encoding="utf-8")
    has = "\n\ndef processors():\n    return 3\n\n\ndef free_gigabytes():\n    return {}\n"
    environment = {name: value for name, value in os.environ.items() if name != "RT_JOBS"}
    lay(top, {"tools/machine.py": machine + has.format(free)})
    words = ["env", "-u", "RT_JOBS", *([f"RT_JOBS={given}"] if given else []), ".ci/run"]
    run(top, *words, **{**environment, "PATH": f"{top / 'bin'}{os.pathsep}{os.environ['PATH']}"})
    assert (top / "called").read_text(encoding="utf-8").splitlines()[0].partition("|")[2] == wanted
