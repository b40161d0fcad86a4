"""What a job of a cluster does, without a cluster and an engine: which call of the engine it makes, and that no two tries of it work at once.
And runs of the program on a machine whose disk is full."""

import base64
import subprocess
import tempfile
import time
from pathlib import Path
from typing import List

import pytest
from steps.engine import forgiving, settle
from steps.running import Fault, Limits, run

JOB = Path(__file__).resolve().parent.parent.parent / "tools" / "scenarios" / "slurm" / "scenarios-job.sh"


def job(folder: Path, attempt: int, call: str = "", group: str = "0a1b-2c") -> List[str]:
    """Returns the words that run a job in a folder: what stands for the engine prints its words, one a line, and then does what is told."""
    engine = folder / "engine"
    engine.write_text(f'#!/bin/sh\nfor it; do echo "$it"; done\n{call}\n', encoding="utf-8")
    engine.chmod(0o755)
    words = f"--snakefile 'a b' --target-jobs 'tables:name=s0' 'solve:name=s0' --local-groupid '{group}' --cores 2 --attempt {attempt}"
    whole = f"cd {folder} && {engine} -m snakemake {words} --force --nolock && exit 0 || exit 1"
    script = folder / f"job-{attempt}"
    script.write_text(JOB.read_text(encoding="utf-8").format(properties='{"rule": "x"}', exec_job=whole) + "\n", encoding="utf-8")
    return ["sh", str(script)]


@pytest.mark.parametrize("attempt, is_forced", [(1, True), (2, False), (4, False), (11, False)])
def test_call(attempt: int, is_forced: bool, scratch: Path) -> None:
    """A job goes on where one scenario fails, and does at a further try what lacks alone."""
    ran = subprocess.run(job(scratch, attempt), cwd=scratch, stdout=subprocess.PIPE, text=True, check=False)
    force = ["--force"] if is_forced else []
    wanted = ["-m", "snakemake", "--keep-going", "--snakefile", "a b", "--target-jobs", "tables:name=s0", "solve:name=s0"]
    assert ran.stdout.splitlines() == [*wanted, "--local-groupid", "0a1b-2c", "--cores", "2", "--attempt", str(attempt), *force, "--nolock"]
    assert ran.returncode == 0


def test_status(scratch: Path) -> None:
    """The status is that of the engine's call."""
    assert subprocess.run(job(scratch, 1, "exit 3"), cwd=scratch, stdout=subprocess.DEVNULL, check=False).returncode == 1


def test_tries_at_once(scratch: Path) -> None:
    """Two tries of one job never work at once: the second begins when the first has ended, though nobody knows of that any more."""
    waits = "at=0; while [ ! -e go ] && [ $at -lt 400 ]; do sleep 0.05; at=$((at+1)); done"
    first = subprocess.Popen(job(scratch, 1, f"touch first-began; {waits}; touch first-ended"), cwd=scratch)
    wait_for(scratch / "first-began")
    (scratch / "other").mkdir()
    (scratch / "another").mkdir()
    second = subprocess.Popen(job(scratch / "other", 2, f"touch {scratch}/second-began; [ -e {scratch}/first-ended ]"), cwd=scratch)
    third = job(scratch / "another", 3, "", "another")
    assert subprocess.run(third, cwd=scratch, stdout=subprocess.DEVNULL, check=False, timeout=20).returncode == 0
    time.sleep(0.3)
    assert not (scratch / "second-began").exists()
    (scratch / "go").touch()
    assert (first.wait(20), second.wait(20)) == (0, 0) and (scratch / "second-began").exists()


def wait_for(file: Path) -> None:
    """Waits until a file stands there."""
    until = time.monotonic() + 20
    while not file.exists():
        assert time.monotonic() < until
        time.sleep(0.02)


def test_no_place_for_locks(scratch: Path) -> None:
    """Where no lock can be written the job works without."""
    (scratch / ".snakemake").write_text("", encoding="utf-8")
    assert subprocess.run(job(scratch, 2), cwd=scratch, stdout=subprocess.DEVNULL, stderr=subprocess.DEVNULL, check=False).returncode == 0


def test_what_stands_is_complete(scratch: Path) -> None:
    """An output that stands isn't called incomplete any more, and one that doesn't stays so."""
    marks = scratch / ".snakemake" / "incomplete"
    marks.mkdir(parents=True)
    (scratch / "scenarios" / "a" / "solved").mkdir(parents=True)
    (scratch / "scenarios" / "a" / "check.json").touch()
    for name in ("a/solved", "a/check.json", "a/sizes.json", "b/solved"):
        (marks / base64.urlsafe_b64encode(f"scenarios/{name}".encode()).decode()).touch()
    (marks / "no mark").touch()
    assert settle(str(scratch / ".snakemake")) == 2
    left = [base64.urlsafe_b64encode(f"scenarios/{name}".encode()).decode() for name in ("a/sizes.json", "b/solved")]
    assert sorted(it.name for it in marks.iterdir()) == sorted([*left, "no mark"])
    assert settle(str(scratch / "none")) == 0


def test_forgiving() -> None:
    """A fault of the outside ends nothing, and another fault does."""
    forgiving(full)(None)
    with pytest.raises(ValueError):
        forgiving(lambda _: [].index(0))(None)  # type: ignore[arg-type]


def standing_in(folder: Path, text: str) -> str:
    """Returns a program that stands in for the built one."""
    path = folder / "program"
    path.write_text(f"#!/bin/sh\n{text}\n", encoding="utf-8")
    path.chmod(0o755)
    return str(path)


def test_full_disk(scratch: Path, monkeypatch: pytest.MonkeyPatch) -> None:
    """A run of the program writes nothing on the disk of its machine, which may be full."""
    monkeypatch.setenv("TMPDIR", str(scratch / "none"))
    monkeypatch.setattr(tempfile, "mkstemp", full)
    monkeypatch.setattr(tempfile, "NamedTemporaryFile", full)
    ran = run(standing_in(scratch, 'echo "holds: bound 5"; i=0; while [ $i -lt 20000 ]; do i=$((i+1)); done'), ["check", "."], Limits(200, 1))
    assert (ran.status, ran.told) == (0, "holds: bound 5") and 0 < ran.seconds < 60 and 500 < ran.memory < 200_000


def full(*_: object, **__: object) -> None:
    """Raises what a full disk does."""
    raise OSError(28, "No space left on device")


# What stands in for the program, and what is said of it.
NO_ANSWER = {"exit 7": "a file couldn't be read or written", "kill -9 $$": "it was killed", "exit 2": "it couldn't be run"}


@pytest.mark.parametrize("text", NO_ANSWER)
def test_no_answer(text: str, scratch: Path) -> None:
    """A run without an answer is a fault, with what it might take."""
    with pytest.raises(Fault) as error:
        run(standing_in(scratch, text), ["solve", "."], Limits(200, 1))
    assert str(error.value).endswith(f": {NO_ANSWER[text]} (it might take 200 MB, 1 minutes)")
