"""Proves crates side by side in the clone itself, and builds the program over them: what is kept within each crate's out/ is what `rt check`
begins with.

A crate is started as soon as all below it are built, first those with the longest chain of crates above them, as many as there are
processors and memory allows."""

import contextlib
import os
import subprocess
import sys
import time
from pathlib import Path
from typing import Callable, Dict, Iterable, List, Set

import machine
from fleetplan import origin
from build_log import say, tell
from forecast import Forecast

TOOLS = Path(__file__).resolve().parent

# Gigabytes that the proof of a crate takes at most, seen on the crates of this repository; those named take more.
GIGABYTES = 2.5
GIGABYTES_OF = {"fleet_cli": 4.0, "fleetplan": 4.0}
# What each further process of one proof adds, and how many a proof makes use of.
GIGABYTES_MORE = 1.5
MOST_JOBS = 4
# What is left to others of the memory that is free when the call begins.
LEFT_FREE = 0.15
# docs/gate.csv tells what `rt ci` took. `rt lib` and `rt run` load more: by so much longer two builds of 2026-11-30 took for the last two.
LOADING = {"fleet_cli": 1.6, "fleetplan": 2.7}

# rt's own statuses of a proof that failed: not proved, stopped, a limit. Any other tells that the proof broke off, as it does
# where memory is short.
JUDGED = (1, 2, 3)


def lines_of(places: origin.Places, crate: str) -> int:
    """Returns the lines of the crate's code, which tell roughly how long its proof takes."""
    return sum(file.read_bytes().count(b"\n") for file in origin.files_of(places, crate) if file.suffix == ".rt")


def chains(below: Dict[str, Set[str]], weights: Dict[str, int]) -> Dict[str, int]:
    """Returns, of each crate, the weight of the heaviest chain of crates from it upwards."""
    found: Dict[str, int] = {}
    for name in sorted(below, key=lambda it: -len(below[it])):
        above = [found[it] for it in below if name in below[it]]
        found[name] = weights[name] + max(above, default=0)
    return found


class Proof:
    """A call of rt that is under way in a crate: its process, its log, and how much of the machine it takes."""

    def __init__(self, rt: str, places: origin.Places, name: str, words: Iterable[str], jobs: int = 1, gigabytes: float = GIGABYTES) -> None:
        self.name, self.jobs, self.gigabytes, self.top = name, jobs, gigabytes, places.top
        folder = places.crates / name
        (folder / "out").mkdir(parents=True, exist_ok=True)
        self.log = folder / "out" / "build.log"
        with self.log.open("wb") as log:
            self.process = subprocess.Popen(
                [sys.executable, str(TOOLS / "rt_beside"), str(os.getpid()), rt, *words],
                cwd=folder,
                stdin=subprocess.DEVNULL,
                stdout=log,
                stderr=subprocess.STDOUT,
            )

    def has_ended(self) -> bool:
        """Returns whether the call has ended."""
        return self.process.poll() is not None

    def has_worked(self) -> bool:
        """Returns whether there was anything to do: where all is kept, rt says nothing."""
        return self.log.stat().st_size > 0

    def tell(self) -> None:
        """Prints what the log says of faults."""
        tell(self.log, self.name, self.top)


def stop(proofs: Iterable[Proof]) -> None:
    """Ends what is under way. Each process ends its own ones, and what they kept serves the next call."""
    for it in proofs:
        it.process.terminate()
    for it in proofs:
        it.process.wait()


class Builder:
    """Proves crates side by side: those left, those under way, and those done."""

    def __init__(self, rt: str, places: origin.Places, below: Dict[str, Set[str]]) -> None:
        self.rt, self.places, self.below = rt, places, below
        self.chains = chains(below, {it: lines_of(places, it) for it in below})
        self.left = sorted(below, key=lambda it: -self.chains[it])
        self.running: List[Proof] = []
        self.done: Set[str] = set()
        self.kept: Set[str] = set()
        self.failed: Set[str] = set()
        self.alone: Set[str] = set()
        self.processors = machine.processors()
        self.gigabytes = (1 - LEFT_FREE) * machine.free_gigabytes()
        self.forecast = Forecast(places.top / "docs" / "gate.csv", below, origin.NAME, self.processors, LOADING)

    def run(self, goes_on: Callable[[], bool]) -> bool:
        """Proves what can be proved while goes_on() holds, and returns whether that was all."""
        try:
            self.start_ready()
            while self.running and goes_on():
                time.sleep(0.1)
                ended = [it for it in self.running if it.has_ended()]
                for proof in ended:
                    self.running.remove(proof)
                    self.settle(proof)
                if ended:
                    self.start_ready()
        finally:
            stop(self.running)
        return not self.left and not self.failed

    def start_ready(self) -> None:
        """Starts crates whose libraries are built, while a processor is idle and memory suffices."""
        if any(it.name in self.alone for it in self.running):
            return
        ready = [it for it in self.left if self.below[it] <= self.done]
        for at, name in enumerate(ready):
            idle = self.processors - sum(it.jobs for it in self.running)
            free = self.gigabytes - sum(it.gigabytes for it in self.running)
            needs = GIGABYTES_OF.get(name, GIGABYTES)
            has_room = needs <= free and name not in self.alone
            if self.running and (idle <= 0 or not has_room):
                continue
            jobs = self.jobs_for(name, idle // (len(ready) - at), free - needs)
            self.left.remove(name)
            needs += (jobs - 1) * GIGABYTES_MORE
            self.running.append(Proof(self.rt, self.places, name, ["lib", "--jobs", str(jobs)], jobs, needs))

    def jobs_for(self, name: str, share: int, free: float) -> int:
        """Returns how many processes the proof of the crate gets: its share of the idle processors. With three or more
        processors it gets two at least where no chain is longer than its own, since all else ends before that one."""
        if name in self.alone:
            return 1
        waiting = [*self.left, *(it.name for it in self.running)]
        is_first = self.chains[name] == max(self.chains[it] for it in waiting)
        wanted = max(share, 2 if is_first and self.processors > 2 else 1)
        return max(1, min(wanted, MOST_JOBS, 1 + int(free / GIGABYTES_MORE)))

    def settle(self, proof: Proof) -> None:
        """Notes how a proof ended, and says so. One that broke off is tried once more, with nothing beside it."""
        status = proof.process.returncode
        if status == 0:
            self.done.add(proof.name)
            if not proof.has_worked():
                self.kept.add(proof.name)
            if proof.has_worked() or len(self.done) == len(self.below):
                left = self.forecast.words(self.done, self.kept)
                say(f"{len(self.done)} of {len(self.below) + 1} crates proved{left}")
        elif status not in JUDGED and proof.name not in self.alone:
            say(f"the proof of {proof.name} broke off (status {status}), most likely for memory: once more, alone")
            self.alone.add(proof.name)
            self.left.insert(0, proof.name)
        else:
            self.failed.add(proof.name)
            say(f"{proof.name} was not proved: rt ended with status {status}")
            proof.tell()


def link(rt: str, places: origin.Places, goes_on: Callable[[], bool]) -> bool:
    """Builds the program over the proved libraries, and returns whether there is one.

    rt builds a program only to run it, and then ends with the program's own status, which may be that of a stop of rt too. So
    the old program goes first, and the build is judged by whether there is a new one."""
    with contextlib.suppress(FileNotFoundError):
        places.program.unlink()
    proof = Proof(rt, places, origin.NAME, ["run"])
    try:
        while not proof.has_ended() and goes_on():
            time.sleep(0.1)
    finally:
        if not proof.has_ended():
            stop([proof])
            with contextlib.suppress(FileNotFoundError):
                places.program.unlink()
    is_built = os.access(places.program, os.X_OK)
    if not is_built:
        proof.tell()
    return is_built


def prove(rt: str, places: origin.Places, goes_on: Callable[[], bool]) -> bool:
    """Proves all that the program stands on, builds the program where it isn't there, and returns whether it is."""
    sources = origin.source_sum(places)
    crates = origin.crates_of(places)
    uses = origin.uses_in((places.top / origin.LIST).read_text(encoding="utf-8"))
    below = {it: origin.all_below(uses, it) for it in crates if it != origin.NAME}
    if not Builder(rt, places, below).run(goes_on) or not link(rt, places, goes_on):
        return False
    origin.write_note(places, sources, origin.BUILT)
    say(f"{len(crates)} of {len(crates)} crates proved")
    return True
