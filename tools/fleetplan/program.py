"""The built program, and the one way in which it is called."""

import os
import selectors
import shutil
import subprocess
import time
from typing import Any, Callable, Dict, List, NamedTuple, Optional, Sequence, Tuple, Union

TOP = os.path.dirname(os.path.dirname(os.path.dirname(os.path.realpath(__file__))))
PROGRAM = os.path.join(TOP, "crates", "fleetplan", "out", "fleetplan")
# The most bytes that are read of what the program prints: more than it has to say of any tables. It tells few errors.
MOST_PRINTED, MOST_TOLD = 1 << 25, 1 << 20
BESIDE = subprocess.STDOUT
LATE = "doesn't end in time"
Word = Union[str, bytes]
# What ends a measured run that isn't done in time, since that is no child of ours; and after how many seconds more it is given up.
_TIMEOUT, _LATER = ("timeout", "--foreground", "-s", "KILL"), 5


def program() -> str:
    """Returns the program that is called: that of the environment's FLEETPLAN, the built one, the released one, or the one on the PATH; the
    built one's place where there is none."""
    places = (os.environ.get("FLEETPLAN"), PROGRAM, os.path.join(TOP, "release", "fleetplan"), shutil.which("fleetplan"))
    return next((it for it in places if it and os.access(it, os.X_OK)), PROGRAM)


class TooLate(subprocess.SubprocessError):
    """A run that didn't end in time."""


class Ran(NamedTuple):
    """What a run came to: its status (a signal's is negative), what it printed and told on standard error, the seconds that it took by the
    clock and of the processor, and where that was measured the most memory that it held, in bytes."""

    status: int
    printed: bytes
    told: bytes
    elapsed: float
    seconds: float
    peak: int = 0

    @property
    def text(self) -> str:
        """What it printed."""
        return self.printed.decode("utf-8", "replace")


class Runner:
    """How the program is called: which one (else that of `program()`), within how many seconds of the clock, bytes of what it prints, MB of
    memory, seconds of the processor and kB of the stack, each without a limit where none is given; whether GNU time measures what it takes
    (else its seconds are those of all processes of ours that end meanwhile); what hears each line that it tells on standard error; and
    `more` words of subprocess.Popen, as cwd, env, and stderr=BESIDE, by which it tells what it tells where it prints. `last` is the last run."""

    last: Ran

    def __init__(
        self,
        program: "Union[None, str, os.PathLike[str]]" = None,
        seconds: Optional[float] = None,
        printed: int = MOST_PRINTED,
        memory: Optional[int] = None,
        processor: Optional[int] = None,
        stack: Optional[int] = None,
        is_measured: bool = False,
        hear: Optional[Callable[[str], None]] = None,
        **more: object,
    ) -> None:
        self.own, self.seconds, self.printed, self.is_measured, self.hear, self.more = program, seconds, printed, is_measured, hear, more
        self.limits = {"v": None if memory is None else 1024 * memory, "t": processor, "s": stack}

    @property
    def program(self) -> str:
        """The program that is called."""
        return os.fspath(self.own) if self.own else program()

    def run(self, *words: object) -> Ran:
        """Calls the program, and returns what that came to; or raises OSError where it can't be run, TooLate, and SubprocessError where it
        prints or tells too much."""
        # Limits hold for the program alone, and no process of ours.
        limits = "".join(f"ulimit -S -{name} {most} && " for name, most in self.limits.items() if most is not None)
        limited = ["sh", "-c", f'{limits}exec "$@"', "sh"] if limits else []
        own: List[Word] = [it if isinstance(it, bytes) else str(it) for it in words]
        self.last = self._measured(limited, own) if self.is_measured else self._run([*limited, self.program, *own])
        return self.last

    def _measured(self, limited: Sequence[str], own: Sequence[Word]) -> Ran:
        # The note comes by a pipe, since the disk of a machine may be full.
        ours, theirs = os.pipe()
        with os.fdopen(ours, encoding="ascii") as note:
            try:
                late = [*_TIMEOUT, str(self.seconds)] if self.seconds else []
                timed = ["time", "-q", "-f", "%U %S %M", "-o", f"/dev/fd/{theirs}", *late, os.path.abspath(self.program)]
                ran = self._run([*limited, *timed, *own], pass_fds=[theirs])
            finally:
                os.close(theirs)
            # Of what couldn't even be begun nothing is told.
            user, system, most = note.read().split()[-3:] or ("0", "0", "0")
        return ran._replace(seconds=float(user) + float(system), peak=1024 * int(most))

    def _run(self, words: Sequence[Word], **more: object) -> Ran:
        how: Dict[str, Any] = {"stdin": subprocess.DEVNULL, "stdout": subprocess.PIPE, "stderr": subprocess.PIPE, **self.more, **more}
        began, before = time.monotonic(), os.times()
        ends = None if self.seconds is None else began + self.seconds + self.is_measured * _LATER
        with subprocess.Popen(words, **how) as ran:
            try:
                said = self._said(ran, ends)
                status = ran.wait(_left(ends))
            except BaseException as error:
                ran.kill()
                if isinstance(error, subprocess.TimeoutExpired):
                    raise TooLate(LATE) from error
                raise
        elapsed, after = time.monotonic() - began, os.times()
        if self.is_measured and self.seconds is not None and elapsed >= self.seconds:
            raise TooLate(LATE)
        # Each sum is taken first, so that rounding makes no time below 0.
        spent = (after.children_user + after.children_system) - (before.children_user + before.children_system)
        return Ran(status, *said, elapsed, spent)

    def _said(self, ran: "subprocess.Popen[bytes]", ends: Optional[float]) -> Tuple[bytes, bytes]:
        """Returns what a process prints and tells until it closes both, by parts, and has each line that it tells heard."""
        output, errors = bytearray(), bytearray()
        with selectors.DefaultSelector() as waiting:
            for stream, *what in ((ran.stdout, output, self.printed, "prints"), (ran.stderr, errors, MOST_TOLD, "tells")):
                if stream:
                    waiting.register(stream, selectors.EVENT_READ, what)
            heard = 0
            while waiting.get_map():
                ready = waiting.select(_left(ends))
                if not ready:
                    raise TooLate(LATE)
                for key, _ in ready:
                    held, most, does = key.data
                    part = os.read(key.fd, 1 << 16)
                    held += part
                    if not part:
                        waiting.unregister(key.fileobj)
                    if len(held) > most:
                        raise subprocess.SubprocessError(f"{does} more than {most} bytes")
                heard = self._heard(errors, heard)
        self._heard(errors + b"\n" if heard < len(errors) else errors, heard)
        return bytes(output), bytes(errors)

    def _heard(self, told: bytes, heard: int) -> int:
        """Has the lines heard that are whole behind those heard before, and returns where they end."""
        end = told.rfind(b"\n", heard) + 1
        if self.hear and end:
            for line in told[heard : end - 1].split(b"\n"):
                self.hear(line.decode("utf-8", "replace").rstrip("\r"))
        return max(heard, end)


def _left(ends: Optional[float]) -> Optional[float]:
    """Returns the seconds until a time, None where there is none."""
    return None if ends is None else max(0.0, ends - time.monotonic())
