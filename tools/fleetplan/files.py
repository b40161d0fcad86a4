"""Files and folders that are written whole or not at all: beside their place first, and then put there.

A file keeps its mode, and one that a link leads to stays behind the link. What is put is on the disk before. SIGTERM and SIGHUP end a write
as Ctrl-C does, so that nothing is left beside; what a killed process has left there goes with the first write an hour later."""

import contextlib
import errno
import fcntl
import os
import re
import shutil
import signal
import stat
import tempfile
import threading
import time
from typing import Any, Dict, Iterable, Iterator, List, Mapping, Optional, Union

from fleetplan.errors import FAULT, Unread

Data = Union[str, bytes]
# What is written beside a place is called `.NAME-` and eight letters, with this end. Of a name so many letters stand there.
_END, _MOST_LETTERS = ".part", 60
_HOUR = 3600.0


def write(path: str, data: Data) -> None:
    """Writes a file, or raises OSError and leaves what stood there: also where that is no file."""
    write_all(os.path.dirname(path) or ".", {os.path.basename(path): data})


def write_all(folder: str, files: Mapping[str, Data], key: Optional[str] = None) -> None:
    """Writes files of a folder in their order, or raises OSError and leaves all as they were. None stands in its place before all are written
    beside, so only a process that is killed while they are put leaves some new and the others old. With a `key`, one of them without which
    the others don't read, it leaves none that read: that one is taken away first, and put last."""
    places = {name: os.path.realpath(os.path.join(folder, name)) for name in files}
    beside: Dict[str, str] = {}
    with _ended_by_signals():
        try:
            for name, data in files.items():
                _want_file_or_nothing(places[name])
                _tidy(places[name])
                beside[places[name]] = _written(places[name], data)
            _sync(beside)
            _put(beside, None if key is None else places[key])
        finally:
            _forget(beside.values())


def _put(beside: Dict[str, str], key: Optional[str]) -> None:
    """Puts files that stand beside into their places. What stood there is kept beside meanwhile, and comes back where one can't be put."""
    older = {it: f"{path}{_END}" if os.path.lexists(it) else None for it, path in beside.items()}
    places = sorted(beside, key=lambda it: it == key)
    try:
        for it in sorted(places, key=lambda it: it != key):
            _keep(it, older[it], it == key)
        for it in places:
            os.replace(beside[it], it)
        _sync(places)
    except BaseException:
        for it in places:
            _put_back(older[it], it)
        raise
    finally:
        _forget(filter(None, older.values()))


def _keep(path: str, place: Optional[str], is_taken: bool) -> None:
    """Keeps what stands in a file under another name beside it, where it stands there: alone, where it is to be taken away."""
    if place and is_taken:
        os.replace(path, place)
    elif place:
        try:
            os.link(path, place)
        except OSError:
            shutil.copy2(path, place)


def _put_back(older: Optional[str], path: str) -> None:
    """Puts back what stood in a file, or takes the file away where none did."""
    with contextlib.suppress(OSError):
        if older is None:
            os.remove(path)
        else:
            os.replace(older, path)


def _forget(paths: Iterable[str]) -> None:
    """Takes files away, as far as they stand there."""
    for it in paths:
        with contextlib.suppress(OSError):
            os.remove(it)


def _written(path: str, data: Data) -> str:
    """Writes a file beside its place, and returns its path there. It has the mode of the one that it is to replace."""
    folder, name = os.path.split(path)
    handle, beside = tempfile.mkstemp(_END, _begin(name), folder)
    try:
        with open(handle, "wb") as it:
            it.write(data.encode("utf-8") if isinstance(data, str) else data)
            it.flush()
            os.fsync(it.fileno())
        os.chmod(beside, stat.S_IMODE(os.stat(path).st_mode) if os.path.isfile(path) else 0o666 & ~_mask())
    except BaseException:
        with contextlib.suppress(OSError):
            os.remove(beside)
        raise
    return beside


@contextlib.contextmanager
def new_folder(place: str) -> Iterator[str]:
    """Gives a folder to be filled, and puts it into its place when all is written, or raises OSError and leaves nothing of it."""
    above, name = os.path.split(os.path.abspath(place))
    with _ended_by_signals():
        _tidy(os.path.join(above, name))
        beside = tempfile.mkdtemp(_END, _begin(name), above)
        try:
            yield beside
            os.chmod(beside, 0o777 & ~_mask())
            _sync([os.path.join(beside, name), beside])
            os.rename(beside, place)
        except BaseException:
            shutil.rmtree(beside, ignore_errors=True)
            raise
        _sync([beside])


@contextlib.contextmanager
def locked(folder: str) -> Iterator[None]:
    """Waits until no other call holds a folder, and holds it; or raises OSError."""
    handle = os.open(folder, os.O_RDONLY | os.O_DIRECTORY)
    try:
        fcntl.flock(handle, fcntl.LOCK_EX)
        yield
    finally:
        os.close(handle)


@contextlib.contextmanager
def told_of(path: str, why: Optional[str] = None) -> Iterator[None]:
    """Raises Unread in the place of OSError: that a path can't be written, and why."""
    try:
        yield
    except OSError as error:
        raise Unread.of(path, f"can't be written: {why or error.strerror}", FAULT) from error


def remove(path: str) -> None:
    """Takes a folder or a file away, if it stands there."""
    if os.path.isdir(path) and not os.path.islink(path):
        shutil.rmtree(path, ignore_errors=True)
    else:
        with contextlib.suppress(FileNotFoundError):
            os.remove(path)


@contextlib.contextmanager
def _ended_by_signals() -> Iterator[None]:
    """Has SIGTERM and SIGHUP, where nothing else waits for them, end what is done as Ctrl-C does, and then the process. Other threads hear
    of no signals."""
    came: List[int] = []
    heard: List[int] = []

    def stop(number: int, _: Any) -> None:
        came.append(number)
        for it in heard:
            signal.signal(it, signal.SIG_IGN)
        raise KeyboardInterrupt

    if threading.current_thread() is threading.main_thread():
        heard = [it for it in (signal.SIGTERM, signal.SIGHUP) if signal.getsignal(it) == signal.SIG_DFL]
    try:
        for it in heard:
            signal.signal(it, stop)
        yield
    finally:
        for it in heard:
            signal.signal(it, signal.SIG_DFL)
        if came:
            os.kill(os.getpid(), came[0])


def _want_file_or_nothing(path: str) -> None:
    """Raises OSError where what stands in a place is no file, as a folder, a pipe or a device."""
    with contextlib.suppress(FileNotFoundError):
        mode = os.stat(path).st_mode
        if stat.S_ISDIR(mode):
            raise IsADirectoryError(errno.EISDIR, "it is a folder", path)
        if not stat.S_ISREG(mode):
            raise OSError(errno.EINVAL, "it is no file", path)


def _begin(name: str) -> str:
    return f".{name[:_MOST_LETTERS]}-"


def _tidy(path: str) -> None:
    """Takes away what killed processes have left beside a place an hour ago or earlier."""
    folder, name = os.path.split(path)
    form, before = re.compile(rf"{re.escape(_begin(name))}\w{{8}}({re.escape(_END)}){{1,2}}"), time.time() - _HOUR
    with contextlib.suppress(OSError), os.scandir(folder) as entries:
        for it in entries:
            if form.fullmatch(it.name) and it.stat(follow_symlinks=False).st_mtime < before:
                remove(it.path)


def _sync(paths: Iterable[str]) -> None:
    """Has the folders of some paths on the disk, where the system can do that."""
    for folder in {os.path.dirname(it) for it in paths}:
        with contextlib.suppress(OSError):
            handle = os.open(folder, os.O_RDONLY)
            try:
                os.fsync(handle)
            finally:
                os.close(handle)


def _mask() -> int:
    """Returns the bits that a new file may not have."""
    found = os.umask(0)
    os.umask(found)
    return found
