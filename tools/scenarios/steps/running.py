"""Runs of the program within the memory and the time that are given to them, with what they took."""

import shutil
import subprocess
from typing import NamedTuple, Sequence

from fleetplan.program import Ran as Run, Runner
from fleetplan.texts import tell

# What the program ends with where it answers; all else is a fault of the machine, which another try may not meet.
ANSWERS = (0, 2, 3, 4, 5, 6, 9, 11)
WHY = {7: "a file couldn't be read or written", 8: "memory ran out", 152: "the time ran out"}


class Fault(Exception):
    """A run that ended without an answer."""


class Limits(NamedTuple):
    """What a run may take: memory in MB and minutes of the processor."""

    memory: int
    minutes: int


class Ran(NamedTuple):
    """A run that answered: its status, what it printed, seconds of the processor, and the most memory held, in kB."""

    status: int
    told: str
    seconds: float
    memory: int


def run(program: str, words: Sequence[str], limits: Limits) -> Ran:
    """Runs the program, or raises Fault where it gives no answer: by status 7 or 8, a signal, or since it couldn't be run."""
    if shutil.which("time") is None:
        raise Fault("GNU time isn't on the PATH (Debian's package time)")
    runner = Runner(program, memory=limits.memory, processor=60 * limits.minutes, is_measured=True, hear=tell)
    try:
        ran = runner.run(*words)
    except (OSError, subprocess.SubprocessError) as error:
        raise Fault(f"{words[0]}: it {error}") from error
    # A shell that may not set its limits ends with 2 as well, and without the program's line.
    if ran.status not in ANSWERS or (ran.status == 2 and not ran.text.startswith("usage: ")):
        raise Fault(f"{words[0]} ended with {ran.status}: {why(ran)} (it might take {limits.memory} MB, {limits.minutes} minutes)")
    return Ran(ran.status, ran.text.rstrip("\n"), ran.seconds, ran.peak // 1024)


def why(ran: Run) -> str:
    """Says what a run died of."""
    killed = "it was killed" if ran.status > 128 or ran.status < 0 else "it couldn't be run"
    return ran.text.strip() or WHY.get(ran.status, killed)
