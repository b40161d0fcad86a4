"""Runs of tools/scenarios in scratch folders, and what stands there afterwards."""

import contextlib
import os
import random
import resource
import shutil
import signal
import subprocess
import sys
import time
from pathlib import Path
from typing import Callable, Dict, Iterable, List, Mapping, Optional, Sequence, Tuple, TypeVar

from shared import BUILT, EXAMPLES, TOP, rows as records

from fleetplan.files import write
from fleetplan.records import text_of

PLACE = TOP / "tools" / "scenarios"
HUB_DAY = EXAMPLES / "hub-day"
# Columns of the summary that may differ from run to run.
TAKEN = ("seconds", "memory MB")
# A record of scenarios.csv, the environment of an engine, and what a call returns.
Record = Tuple[str, str, str, str]
Environment = Optional[Mapping[str, str]]
Found = TypeVar("Found")


class Tries:
    """What was tried, and whether all of it is right."""

    def __init__(self) -> None:
        self.are_right = True

    def __call__(self, what: str, is_right: object, more: str = "") -> None:
        """Prints what was tried, and notes whether it is right."""
        self.are_right &= bool(is_right)
        print(f"{'ok   ' if is_right else 'WRONG'} {what}{f': {more}' if more else ''}", flush=True)

    def without(self, what: str, why: Optional[str]) -> None:
        """Prints what is left out, and why."""
        print(f"out   {what}: there is no {why}", flush=True)


def drawn(base: Path, count: int, seed: int = 1) -> List[Record]:
    """Returns so many scenarios of a schedule, drawn from a number: other costs, other numbers of aircraft, other times, legs that may
    be left out, less room at night, a leg or two not flown."""
    draw = random.Random(seed)
    fleets = [it["fleet"] for it in records(base, "fleets.csv")]
    legs = records(base, "legs.csv")
    rows = []
    for at in range(count):
        changes = [f"cost {draw.choice(fleets)} *{draw.randrange(80, 130) / 100:.2f}"]
        changes += [f"aircraft {draw.choice(fleets)} {draw.choice(('-1', '+1', '+2'))}"] * (draw.random() < 0.7)
        changes += drawn_more(draw, base, legs)
        if draw.random() < 0.3:
            out = draw.choice(legs)
            back = next((it for it in legs if (it["from"], it["to"]) == (out["to"], out["from"])), None)
            changes += [f"drop-leg {it['flight']}" for it in (out, back) if it]
        rows.append((f"s{at}", draw.choice(("", "--days 4", "--day-start 04:00")), "", "; ".join(changes)))
    return rows


def drawn_more(draw: random.Random, base: Path, legs: Sequence[Dict[str, str]]) -> List[str]:
    """Returns changes for other times, for legs that may be left out, and for less room at night, or none of these."""
    changes = []
    if draw.random() < 0.3:
        shifts = (-15, -5, 10)
        changes += [f"window {it['flight']} {draw.choice(shifts)} {draw.randrange(-200, 300)}" for it in draw.sample(legs, 8)]
    if draw.random() < 0.3:
        changes += [f"optional {it['flight']} {draw.randrange(1000, 9000)}" for it in draw.sample(legs, 4)]
    if draw.random() < 0.2:
        changes.append(f"parking {draw.choice(records(base, 'stations.csv'))['code']} {draw.randrange(1, 8)}")
    return changes


class Run:
    """A run's folder, with the tables of a base and scenarios of it."""

    def __init__(self, folder: Path, base: Path, rows: Sequence[Record], **config: object) -> None:
        self.folder = Path(folder)
        self.folder.mkdir(parents=True, exist_ok=True)
        lines: Dict[str, object] = {"base": base, "program": BUILT, **config}
        (self.folder / "config.yaml").write_text("".join(f"{name}: {value}\n" for name, value in lines.items()), encoding="utf-8")
        write(str(self.folder / "scenarios.csv"), text_of(("scenario", "words", "folder", "changes"), rows))
        self.count = len(rows)
        self.before: List[str] = []

    def words(self, profile: str, *more: str) -> List[str]:
        """Returns the words of a call of the engine."""
        own = ["snakemake", "-s", PLACE / "Snakefile", "--profile", PLACE / profile, "--directory", self.folder]
        return [*self.before, *map(str, own), *more]

    def start(self, profile: str, *more: str, environment: Environment = None) -> "subprocess.Popen[bytes]":
        """Starts the engine, whose output stands in the file `engine` of the folder."""
        with open(self.folder / "engine", "ab") as out:
            words, nothing = self.words(profile, *more), subprocess.DEVNULL
            return subprocess.Popen(words, stdin=nothing, stdout=out, stderr=out, env=environment, start_new_session=True)

    def go(self, profile: str, *more: str, environment: Environment = None) -> int:
        """Runs the engine to its end, and returns its status."""
        engine = self.start(profile, *more, environment=environment)
        try:
            return engine.wait()
        except BaseException:
            stop(engine)
            raise

    def on(self, cores: int) -> int:
        """Runs the engine on so many cores, and returns its status."""
        return self.go("cores", "--cores", str(cores))

    def unlock(self) -> int:
        """Takes away the lock that a killed engine left."""
        return self.go("cores", "--cores", "1", "--unlock")

    def summary(self) -> List[Dict[str, str]]:
        """Returns the records of the summary without what differs from run to run; none where there is no summary."""
        if not (self.folder / "summary.csv").exists():
            return []
        return [{name: text for name, text in it.items() if name not in TAKEN} for it in records(self.folder, "summary.csv")]

    def row(self, name: str) -> Dict[str, str]:
        """Returns the record of a scenario in the summary."""
        return next(it for it in self.summary() if it["scenario"] == name)

    def place(self, name: str, file: str = "") -> Path:
        """Returns the path of a scenario's folder, or of a file there."""
        return self.folder / "scenarios" / name / file

    def done(self) -> Dict[Path, Tuple[int, int]]:
        """Returns of each output that stands there which file it is, and its time."""
        outputs = [it for name in ("tables", "solved", "check.json", "sizes.json", "drawn") for it in self.folder.glob(f"scenarios/*/{name}")]
        return {it: (it.stat().st_ino, (it / ".snakemake_timestamp" if it.is_dir() else it).stat().st_mtime_ns) for it in finished(outputs)}

    def answered(self) -> Dict[Path, int]:
        """Returns the time of each solution that stands there, which the engine leaves alone when it sets the times of outputs."""
        return {it: it.stat().st_mtime_ns for it in self.folder.glob("scenarios/*/solved/answer.json")}

    def wait_until_done(self, number: int, engine: "subprocess.Popen[bytes]", output: str = "check.json") -> bool:
        """Waits until an output of so many scenarios stands there, and returns whether the engine is still at work then."""
        while engine.poll() is None and len(list(self.folder.glob(f"scenarios/*/{output}"))) < number:
            time.sleep(0.05)
        return engine.poll() is None

    def kill_solve(self, engine: "subprocess.Popen[bytes]") -> bool:
        """Waits until the program solves a scenario, kills that process by its id, and returns whether there was one."""
        while engine.poll() is None:
            found = solves_in(self.folder)
            time.sleep(0.5 if found else 0.05)
            with contextlib.suppress(ProcessLookupError, IndexError):
                os.kill(found[0], signal.SIGKILL)
                return True
        return False

    def half_written(self) -> List[Path]:
        """Returns the folders that are neither absent nor complete."""
        solved = [it for it in self.folder.glob("scenarios/*/solved") if not (it / "answer.json").exists()]
        tables = [it for it in self.folder.glob("scenarios/*/tables") if len(list(it.glob("*.csv"))) < 5]
        return solved + tables


def solves_in(folder: Path) -> List[int]:
    """Returns the ids of the program's processes that solve at work in a folder."""
    found = []
    for it in Path("/proc").glob("[0-9]*"):
        with contextlib.suppress(OSError):
            words = (it / "cmdline").read_bytes().split(b"\0")
            if words[:2] == [str(BUILT).encode(), b"solve"] and (it / "cwd").resolve() == folder.resolve():
                found.append(int(it.name))
    return found


def finished(outputs: Iterable[Path]) -> List[Path]:
    """Returns those that are complete."""
    return [it for it in outputs if not it.is_dir() or (it / ".snakemake_timestamp").exists()]


def timed(call: Callable[[], Found]) -> Tuple[Found, float, float]:
    """Returns what a call returns, the seconds that passed, and those of the processor of all that it ran."""
    before, start = resource.getrusage(resource.RUSAGE_CHILDREN), time.monotonic()
    answer = call()
    after = resource.getrusage(resource.RUSAGE_CHILDREN)
    used = after.ru_utime + after.ru_stime - before.ru_utime - before.ru_stime
    return answer, time.monotonic() - start, used


def without_engine(run: Run) -> None:
    """Does the steps of a run's scenarios one after another, with no engine."""
    sys.path[:0] = [str(PLACE), str(PLACE.parent)]
    from steps.listing import scenarios_of

    step, limits = [python_of_engine(), PLACE / "step"], ["512", "10"]
    for name, it in scenarios_of(str(run.folder / "scenarios.csv")).items():
        place = run.place(name)
        place.mkdir(parents=True)
        base = next(line.split(": ", 1)[1] for line in (run.folder / "config.yaml").read_text().splitlines() if line.startswith("base"))
        for words in (
            ["tables", BUILT, place / "tables", *limits, "0", it.period, *it.files(base), "--", *it.changes],
            ["solve", BUILT, place / "solved", *limits, "0", place / "tables", *it.words],
            ["check", BUILT, place / "check.json", *limits, "0", place / "solved"],
            ["sizes", BUILT, place / "sizes.json", *limits, "0", place / "solved"],
            ["draw", place / "drawn", "0", place / "solved", name],
        ):
            subprocess.run([*map(str, step), *map(str, words)], stdin=subprocess.DEVNULL, check=True)


def python_of_engine() -> str:
    """Returns the Python that the engine runs by, and so its steps."""
    with open(shutil.which("snakemake") or "", encoding="utf-8") as it:
        return it.readline()[len("#!") :].strip()


def wrapped(path: Path, line: str) -> Path:
    """Returns a program that does a line of shell before it is the real one."""
    path.write_text(f'#!/bin/sh\n{line}\nexec {BUILT} "$@"\n', encoding="utf-8")
    path.chmod(0o755)
    return path


def kill(process: "subprocess.Popen[bytes]") -> None:
    """Ends a process by its id, by a signal that it can't hear."""
    os.kill(process.pid, signal.SIGKILL)
    process.wait()


def stop(engine: "subprocess.Popen[bytes]") -> None:
    """Ends the engine as Ctrl-C does, so that it cancels its jobs, and after a while with all that it has started."""
    engine.send_signal(signal.SIGINT)
    try:
        engine.wait(20)
    except subprocess.TimeoutExpired:
        os.killpg(engine.pid, signal.SIGKILL)
        engine.wait()


def is_root() -> bool:
    """Returns whether root calls, who may mount a disk."""
    return os.geteuid() == 0 and shutil.which("mount") is not None
