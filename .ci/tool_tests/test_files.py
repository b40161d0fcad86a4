"""Files and folders that are written whole or not at all."""

import contextlib
import os
import signal
import stat
import tempfile
import threading
from functools import partial
from pathlib import Path
from typing import Any, Dict, List, Mapping, Optional
from unittest import mock

import pytest
from breaking import MEMORY, ended_by, failing, full, interrupt, small_files
from fleetplan.files import locked, new_folder, write, write_all
from hypothesis import given, strategies as st

OLD, NEW = {"a": "old a", "b": "old b", "key": "old key"}, {"a": "new a", "b": "new b", "key": "new key"}
# The calls of os that a write of three files makes, with a key that stands there already.
STEPS = [("fsync", it) for it in range(1, 6)] + [("chmod", it) for it in range(1, 4)] + [("replace", it) for it in range(1, 5)]
SIGNALS = (signal.SIGTERM, signal.SIGHUP, signal.SIGINT)


def lay(folder: Path, files: Mapping[str, str] = OLD) -> None:
    """Lays files into a folder."""
    for name, text in files.items():
        (folder / name).write_text(text, encoding="ascii")


def standing(folder: Path) -> Dict[str, str]:
    """Returns the files of a folder."""
    return {it.name: it.read_text(encoding="ascii") for it in folder.iterdir()}


@pytest.mark.parametrize("mode", [0o600, 0o640, 0o444, 0o755])
def test_mode(mode: int, scratch: Path) -> None:
    """A file keeps its mode, and a new one has that of other new files."""
    lay(scratch)
    (scratch / "a").chmod(mode)
    write(str(scratch / "a"), "new")
    write(str(scratch / "c"), "new")
    assert stat.S_IMODE((scratch / "a").stat().st_mode) == mode
    before = os.umask(0)
    os.umask(before)
    assert stat.S_IMODE((scratch / "c").stat().st_mode) == 0o666 & ~before


def test_link(scratch: Path) -> None:
    """What a link leads to is written, also where nothing stands there yet, and the link stays."""
    (scratch / "there").mkdir()
    lay(scratch / "there")
    for name, target in (("link", "there/a"), ("loose", "there/new")):
        (scratch / name).symlink_to(target)
        write(str(scratch / name), f"by {name}")
        assert os.readlink(scratch / name) == target
        assert (scratch / target).read_text(encoding="ascii") == f"by {name}"
    assert sorted(os.listdir(scratch)) == ["link", "loose", "there"]


@pytest.mark.parametrize("kind", ["folder", "pipe", "device", "link to a device"])
def test_no_file(kind: str, scratch: Path) -> None:
    """What is no file stays, and nothing is written beside it."""
    place = scratch / "place"
    if kind == "folder":
        place.mkdir()
    elif kind == "pipe":
        os.mkfifo(place)
    elif kind == "device":
        place = Path("/dev/null")
    else:
        place.symlink_to("/dev/null")
    before = os.lstat(place)
    with pytest.raises(OSError):
        write(str(place), "new")
    assert os.lstat(place) == before
    assert os.listdir(scratch) in ([], ["place"])


def test_synced_before(scratch: Path) -> None:
    """Each file and their folder are on the disk before the first one is put, and the folder is again behind the last."""
    lay(scratch)
    calls: List[str] = []

    def noted(name: str, real: Any) -> Any:
        def call(*words: Any) -> Any:
            calls.append(name)
            return real(*words)

        return mock.patch.object(os, name, call)

    with noted("fsync", os.fsync), noted("replace", os.replace):
        write_all(str(scratch), NEW, "key")
    assert calls == ["fsync"] * 4 + ["replace"] * 4 + ["fsync"]


@pytest.mark.parametrize("name, number", [it for it in STEPS if it[0] != "fsync" or it[1] < 4])
def test_full_disk(name: str, number: int, scratch: Path) -> None:
    """Where a step fails all stands as it was, whether with older files or with some, and nothing beside it."""
    for older in (OLD, {"a": "old a"}):
        with tempfile.TemporaryDirectory(dir=scratch) as folder:
            lay(Path(folder), older)
            with failing(name, number, full), contextlib.suppress(OSError):
                write_all(folder, NEW, "key")
            assert standing(Path(folder)) in (older, NEW)
            assert standing(Path(folder)) == older or older != OLD


def test_full_file(scratch: Path) -> None:
    """A file that breaks off in the middle is taken away."""
    lay(scratch)
    with small_files(1000), pytest.raises(OSError):
        write_all(str(scratch), {**NEW, "b": "b" * 2000})
    assert standing(scratch) == OLD


@pytest.mark.parametrize("name, number", STEPS)
def test_killed(name: str, number: int, scratch: Path) -> None:
    """A process that is killed at any step leaves what is old, new, or lacks the key."""
    lay(scratch)
    assert ended_by(name, number, partial(write_all, str(scratch), NEW, "key"), signal.SIGKILL) == signal.SIGKILL
    stand = {it: text for it, text in standing(scratch).items() if not it.startswith(".")}
    assert "key" not in stand or stand in (OLD, NEW)


@pytest.mark.parametrize("sent", SIGNALS)
@pytest.mark.parametrize("name, number", STEPS)
def test_signals(name: str, number: int, sent: int, scratch: Path) -> None:
    """SIGTERM and SIGHUP end a write as Ctrl-C does: nothing is left beside, and what stands is old or new."""
    lay(scratch)
    assert ended_by(name, number, partial(write_all, str(scratch), NEW, "key"), sent) == sent
    assert standing(scratch) in (OLD, NEW)


@pytest.mark.parametrize("sent", SIGNALS)
def test_signals_in_a_new_folder(sent: int, scratch: Path) -> None:
    """A folder that is being filled goes with the process."""

    def fill() -> None:
        with new_folder(str(scratch / "new")) as beside:
            write_all(beside, NEW)

    assert ended_by("replace", 2, fill, sent) == sent
    assert not os.listdir(scratch)


def test_handlers_come_back(scratch: Path) -> None:
    """What hears of signals before a write does so behind it, and what the caller hears of stays his."""
    before = [signal.getsignal(it) for it in SIGNALS]
    write(str(scratch / "a"), "new")
    with failing("replace", 1, interrupt), pytest.raises(KeyboardInterrupt):
        write(str(scratch / "a"), "newer")
    assert [signal.getsignal(it) for it in SIGNALS] == before
    own: List[int] = []
    signal.signal(signal.SIGTERM, lambda number, _: own.append(number))
    try:
        with failing("replace", 1, lambda: os.kill(os.getpid(), signal.SIGTERM)):
            write(str(scratch / "a"), "newest")
    finally:
        signal.signal(signal.SIGTERM, signal.SIG_DFL)
    assert (own, standing(scratch)) == ([signal.SIGTERM], {"a": "newest"})


def left(folder: Path, name: str, hours: float, is_folder: bool = False) -> Path:
    """Lays what a killed process has left hours ago."""
    place = folder / name
    if is_folder:
        place.mkdir()
        (place / "legs.csv").write_text("half", encoding="ascii")
    else:
        place.write_text("half", encoding="ascii")
    then = place.stat().st_mtime - hours * 3600
    os.utime(place, (then, then))
    return place


def test_leftovers(scratch: Path) -> None:
    """What was left an hour ago goes, and all else stays: what is younger, and what has another name."""
    old = [left(scratch, it, 1.1) for it in (".a-abcd_123.part", ".a-abcd_123.part.part")]
    kept = [left(scratch, it, 9) for it in (".b-abcd1234.part", ".a-abcd1234", ".a-notes.part", "a-abcd1234.part", ".aa-abcd1234.part")]
    kept.append(left(scratch, ".a-young123.part", 0.9))
    write(str(scratch / "a"), "new")
    assert not [it for it in old if it.exists()]
    assert not [it for it in kept if not it.exists()]
    old_folder = left(scratch, ".day-abcd1234.part", 2, is_folder=True)
    young = left(scratch, ".day-abcd5678.part", 0.5, is_folder=True)
    with new_folder(str(scratch / "day")):
        pass
    assert (old_folder.exists(), young.exists(), (scratch / "day").is_dir()) == (False, True, True)


def test_leftovers_of_a_killed_one(scratch: Path) -> None:
    """What a killed process leaves has the name that goes an hour later."""
    lay(scratch)
    ended_by("replace", 3, partial(write_all, str(scratch), NEW, "key"), signal.SIGKILL)
    beside = [it for it in scratch.iterdir() if it.name.startswith(".")]
    assert len(beside) == 5
    for it in beside:
        os.utime(it, (0, 0))
    write_all(str(scratch), NEW, "key")
    assert standing(scratch) == NEW


def test_held_folder(scratch: Path) -> None:
    """Who holds a folder is waited for."""
    order: List[str] = []

    def second() -> None:
        with locked(str(scratch)):
            order.append("second")

    with locked(str(scratch)):
        waits = threading.Thread(target=second)
        waits.start()
        waits.join(0.2)
        order.append("first")
    waits.join(10)
    assert order == ["first", "second"]


LETTERS = st.characters(blacklist_characters="/\0", blacklist_categories=["Cs"])
NAMES = st.text(LETTERS, min_size=1, max_size=60).filter(lambda it: it not in (".", ".."))
DATA = st.one_of(st.binary(max_size=200), st.text(st.characters(blacklist_categories=["Cs"])))


@given(st.dictionaries(NAMES, DATA, min_size=1, max_size=4), st.data())
def test_what_is_read_back(files: Dict[str, Any], data: st.DataObject) -> None:
    """What is read back is what was written, whatever the names and the data, with a key or without, twice over."""
    key: Optional[str] = data.draw(st.sampled_from([None, *files]))
    with tempfile.TemporaryDirectory(dir=MEMORY) as folder:
        for _ in range(2):
            write_all(folder, files, key)
            found = {os.fsdecode(it): Path(folder, os.fsdecode(it)).read_bytes() for it in os.listdir(folder)}
            assert found == {name: it.encode() if isinstance(it, str) else it for name, it in files.items()}
