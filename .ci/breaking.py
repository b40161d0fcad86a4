"""Steps of a write that fail, or at which a process ends: a call of os is another one, once."""

import contextlib
import os
import resource
import signal
from typing import Any, Callable, ContextManager, Iterator, NoReturn, Optional
from unittest import mock

# Many small files are written: in memory, where there is such a place.
MEMORY = "/dev/shm" if os.access("/dev/shm", os.W_OK) else None


def full() -> NoReturn:
    """The disk is full."""
    raise OSError(28, "No space left on device")


def interrupt() -> NoReturn:
    """Ctrl-C comes."""
    raise KeyboardInterrupt


def failing(name: str, number: int, end: Callable[[], None] = full) -> ContextManager[Any]:
    """Has a call of os end so, that of a number, and those before and behind it not."""
    real, seen = getattr(os, name), []

    def fails(*words: Any, **more: Any) -> Any:
        seen.append(words)
        if len(seen) == number:
            end()
        return real(*words, **more)

    return mock.patch.object(os, name, fails)


def ended_by(name: str, number: int, run: Callable[[], object], sent: int) -> Optional[int]:
    """Has a process of its own run, which gets a signal at a call of os, that of a number. Returns which signal ended it, or None."""
    process = os.fork()
    if not process:
        status = 1
        signal.signal(signal.SIGINT, signal.default_int_handler)
        try:
            with failing(name, number, lambda: os.kill(os.getpid(), sent)):
                run()
            status = 0
        except KeyboardInterrupt:
            status = 130
        finally:
            os._exit(status)
    ended = os.waitpid(process, 0)[1]
    return os.WTERMSIG(ended) if os.WIFSIGNALED(ended) else signal.SIGINT if os.WEXITSTATUS(ended) == 130 else None


def killed(name: str, number: int, run: Callable[[], object]) -> bool:
    """Has a process of its own run, and killed at a call of os, that of a number. Returns whether it was."""
    return ended_by(name, number, run, signal.SIGKILL) == signal.SIGKILL


@contextlib.contextmanager
def small_files(most: int) -> Iterator[None]:
    """Has each write fail that would make a file of more bytes, as on a full disk."""
    limits = resource.getrlimit(resource.RLIMIT_FSIZE)
    resource.setrlimit(resource.RLIMIT_FSIZE, (most, limits[1]))
    try:
        yield
    finally:
        resource.setrlimit(resource.RLIMIT_FSIZE, limits)
