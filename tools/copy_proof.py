"""Has `rt ci` prove a copy of the program's crates, without tests and edits, and takes the program that it leaves.

What is proved is kept on the machine by rt (kit 13f), for the next call and for the gate."""

import contextlib
import ctypes
import os
import re
import shutil
import signal
import subprocess
import tempfile
import time
from pathlib import Path
from typing import BinaryIO, Callable, Iterator, Optional, Set

import machine
from fleetplan import origin
from build_log import say, tell
from forecast import Forecast

PR_SET_PDEATHSIG = 1
# What the greatest proof of the program takes, in gigabytes.
GIGABYTES = 2.7
# What stands beside src/ and tells on what rt runs the program.
RUN_ON = ("stdin", "stdout", "args", "status", "data")
# What rt says of a crate that is done, and of one that was proved before.
DONE = re.compile(r"rt: (\w+) (proved|is kept: .*)")
# How often sources that change while they are copied are copied anew.
TIMES = 3
# Seconds between two looks, and how often a folder is removed again that didn't go.
PAUSE = 0.1
WAITS = 100


@contextlib.contextmanager
def scratch() -> Iterator[Path]:
    """Gives an empty folder, and removes it at the end. What rt began ends a moment after rt itself, and may write until then."""
    folder = Path(tempfile.mkdtemp(prefix="fleetplan-build-"))
    try:
        yield folder
    finally:
        for _ in range(WAITS):
            shutil.rmtree(folder, ignore_errors=True)
            if not folder.exists():
                break
            time.sleep(PAUSE)


def copy(source: Path, to: Path) -> None:
    """Copies a file or a folder, where it stands. Links stay links, which rt refuses."""
    if source.is_dir() and not source.is_symlink():
        shutil.copytree(source, to, symlinks=True)
    elif os.path.lexists(source):
        shutil.copy2(source, to, follow_symlinks=False)


def lay_copy(places: origin.Places, room: Path) -> Set[str]:
    """Copies what the program is made of, and returns its crates."""
    crates = origin.crates_of(places)
    lines = (places.top / origin.LIST).read_text(encoding="utf-8").splitlines(keepends=True)
    (room / origin.LIST).write_text("".join(it for it in lines if origin.uses_in(it).keys() & crates), encoding="utf-8")
    copy(places.top / origin.HANDLES, room / origin.HANDLES)
    # It is the top of a repository.
    (room / ".git").mkdir()
    for crate in crates:
        folder = room / "crates" / crate
        folder.mkdir(parents=True)
        for part in (*origin.PARTS, *(RUN_ON if crate == origin.NAME else ())):
            copy(places.crates / crate / part, folder / part)
    return crates


class Progress:
    """The crates that are done, by what the log says, and what is told of them."""

    def __init__(self, places: origin.Places, crates: Set[str], log: BinaryIO) -> None:
        uses = origin.uses_in((places.top / origin.LIST).read_text(encoding="utf-8"))
        below = {it: origin.all_below(uses, it) for it in crates if it != origin.NAME}
        self.crates, self.log = crates, log
        self.done: Set[str] = set()
        self.kept: Set[str] = set()
        self.forecast = Forecast(places.top / "docs" / "gate.csv", below, origin.NAME, machine.processors())

    def lines(self) -> Iterator[str]:
        """Yields the lines that are new in the log. One that isn't whole is left for the next time."""
        while True:
            at = self.log.tell()
            line = self.log.readline()
            if not line.endswith(b"\n"):
                self.log.seek(at)
                return
            yield line.decode("utf-8", "replace").rstrip("\n")

    def tell(self) -> None:
        """Says how many crates are proved, where more are than before."""
        found = [it for it in map(DONE.fullmatch, self.lines()) if it and it[1] in self.crates]
        self.done |= {it[1] for it in found}
        self.kept |= {it[1] for it in found if it[2] != "proved"}
        if any(it[2] == "proved" for it in found) and self.done != self.crates:
            left = self.forecast.words(self.done, self.kept)
            say(f"{len(self.done)} of {len(self.crates)} crates proved{left}")


def end_with_parent() -> None:
    """Has the system end this process when the one that started it ends, however that one ends."""
    ctypes.CDLL(None).prctl(PR_SET_PDEATHSIG, signal.SIGTERM)


def run_gate(rt: str, room: Path, progress: Progress, goes_on: Callable[[], bool]) -> Optional[int]:
    """Has `rt ci` prove the copy while goes_on() holds, and returns its status, or None where it was stopped."""
    with open(progress.log.name, "wb") as log:
        process = subprocess.Popen([rt, "ci"], cwd=room, stdin=subprocess.DEVNULL, stdout=log, stderr=subprocess.STDOUT, preexec_fn=end_with_parent)
    try:
        while process.poll() is None:
            if not goes_on():
                return None
            time.sleep(PAUSE)
            progress.tell()
    finally:
        if process.poll() is None:
            process.terminate()
            process.wait()
    progress.tell()
    return process.returncode


def prove(rt: str, places: origin.Places, goes_on: Callable[[], bool]) -> bool:
    """Proves the program's crates and puts the program in its place, and returns whether it stands there."""
    machine.give_lanes(GIGABYTES)
    log = places.out / "build.log"
    for _ in range(TIMES):
        with scratch() as room:
            sources = origin.source_sum(places)
            crates = lay_copy(places, room)
            if origin.source_sum(places) != sources:
                continue
            log.write_bytes(b"")
            with log.open("rb") as lines:
                status = run_gate(rt, room, Progress(places, crates, lines), goes_on)
            built = origin.Places(room).program
            if status == 0 and built.is_file():
                origin.put_program(places.program, built.read_bytes())
                origin.write_note(places, sources, origin.BUILT)
                say(f"{len(crates)} of {len(crates)} crates proved")
                return True
            if status is not None:
                tell(log, "the proofs", places.top)
            return False
    say("the sources changed while they were copied")
    return False
