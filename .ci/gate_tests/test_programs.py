"""./fleetplan, tools/ready and tools/build, in a small clone with a command in the place of rt: which program answers, and when it is built."""

import os
import shutil
import signal
import subprocess
import sys
import time
from pathlib import Path
from typing import Callable, Dict

import pytest
from fleetplan import origin
from gate_tests.clones import RELEASED, SOURCE, SOURCES, Answer, Clone, change_times, link, write
from gate_tests.laying import lay_command, run

BUILT = Answer("built first judge", 3, 1)


@pytest.fixture
def clone(scratch: Path) -> Clone:
    """A small clone."""
    return Clone(scratch)


def test_release(clone: Clone) -> None:
    """Wants the released program of these sources to answer, and no other."""
    clone.release()
    released = Answer("released judge", 3, 0)
    says = "fleetplan: this is the released program of version 1.0, proved by its gate; `rt ci` proves it here and compares\n"
    assert clone.told("./fleetplan", "judge", ".") == says, "./fleetplan on a terminal"
    assert clone.told("./fleetplan", "judge", ".") == "", "./fleetplan on a terminal, once more"
    shutil.rmtree(clone.places.out)
    assert clone.answer() == released, "./fleetplan with a release of its sources"
    assert clone.answer() == released, "./fleetplan once more"
    assert clone.places.kit.read_text(encoding="utf-8") == "rattle-kit-of-release\n", "./fleetplan: the kit of the release"
    ready = (clone.top / "tools" / "ready").read_text(encoding="utf-8")
    lay_command(clone.top / "tools" / "ready", "#!/bin/sh\nexit 1\n")
    assert clone.answer(CDPATH="/") == released, "./fleetplan knows the times"
    lay_command(clone.top / "tools" / "ready", ready)
    assert clone.answer(FLEETPLAN_BUILD="1") == BUILT, "FLEETPLAN_BUILD=1 ./fleetplan"
    assert clone.answer(FLEETPLAN_BUILD="1") == BUILT._replace(calls=0), "FLEETPLAN_BUILD=1 ./fleetplan once more"
    assert clone.answer() == BUILT._replace(calls=0), "./fleetplan after it"
    assert clone.places.kit.read_text(encoding="utf-8") == "rattle-kit-of-tests\n", "./fleetplan: the kit that built it"


def test_releases(clone: Clone) -> None:
    """Wants a release that isn't whole, isn't of these sources or doesn't run here not to be taken."""
    plants: Dict[str, Callable[[], object]] = {
        "a byte more": lambda: clone.places.released.write_text(f"{RELEASED}#", encoding="ascii"),
        "no program": clone.places.released.unlink,
        "a manifest of other sources": lambda: clone.release(sources="0" * 64),
        "a manifest without a line": lambda: clone.places.manifest.write_text("version: 1.0\n", encoding="ascii"),
        "no manifest": clone.places.manifest.unlink,
    }
    for name, plant in plants.items():
        clone.release()
        shutil.rmtree(clone.places.out, ignore_errors=True)
        wanted = origin.sum_of(clone.places.released)
        plant()
        ended = clone.call("./fleetplan", "judge", ".")
        assert ended.lines == ["built first judge"], f"./fleetplan where the release has {name}"
        says = "release/fleetplan has the sha256" in ended.told and f"wants {wanted}" in ended.told
        assert says == (name in ("a byte more", "no program")), f"./fleetplan where the release has {name}: whether a sum is told"
    shutil.rmtree(clone.places.out)
    clone.release("#!/nowhere\n")
    ended = clone.call("./fleetplan", "judge", ".")
    assert (ended.lines, "doesn't run here" in ended.told) == (["built first judge"], True), "./fleetplan where the release doesn't run"


def test_sums(clone: Clone) -> None:
    """Wants the sum of the sources to be what sha256sum tells."""
    command = f"sha256sum {' '.join(sorted(SOURCES, key=os.fsencode))} | sha256sum"
    wanted = run(clone.top, "sh", "-c", command).lines[0].split()[0]
    assert origin.source_sum(clone.places) == wanted, "the sum of the sources"


def test_sources(clone: Clone) -> None:
    """Wants the program to be built again where the bytes of a source, or which there are, are others, whatever the times are."""
    source, other = clone.top / SOURCE, clone.top / "crates/middle/src/lib.rt"
    added = clone.top / "crates/middle/src/more.rt"
    assert clone.answer() == BUILT, "./fleetplan in a new clone"
    changes: Dict[str, Callable[[], object]] = {
        "an older time": lambda: change_times(other, -1000),
        "a newer time": lambda: change_times(other, 1000),
        "a time in the future": lambda: change_times(other, 10**8),
        "another source beside the program": lambda: write(clone.top / "crates/beside/src/lib.rt", "other\n"),
        "another file": lambda: write(clone.top / "docs/page.md", "other\n"),
    }
    for name, change in changes.items():
        change()
        assert clone.answer() == BUILT._replace(calls=0), f"./fleetplan after {name}"
    stale: Dict[str, Callable[[], object]] = {
        "other bytes of the same time and length": lambda: write(other, "edoc\n"),
        "other bytes of an older time": lambda: change_times(write(other, "more\n"), -(10**6)),
        "a source more": lambda: added.write_text("more\n", encoding="utf-8"),
        "a source less": added.unlink,
        "another name": lambda: other.rename(added),
        "a linked source": lambda: link(added, clone.top / "docs/page.md"),
        "other bytes behind the link": lambda: write(clone.top / "docs/page.md", "third\n"),
        "another line of crates.txt": lambda: write(clone.top / "crates.txt", SOURCES["crates.txt"].replace("csv ", "")),
        "another HANDLES": lambda: write(clone.top / "HANDLES", "Handles allowed: Wait.\n"),
    }
    for name, change in stale.items():
        change()
        assert clone.answer() == BUILT, f"./fleetplan after {name}"
        assert clone.answer() == BUILT._replace(calls=0), f"./fleetplan after {name}, once more"
    write(source, "second\n")
    assert clone.answer() == Answer("built second judge", 3, 1), "./fleetplan after an edit"


def test_programs(clone: Clone) -> None:
    """Wants another program in the place of the one that was built not to answer."""
    clone.answer()
    built = clone.places.program
    write(built, built.read_text(encoding="utf-8").replace("built", "other"))
    assert clone.answer() == BUILT, "./fleetplan with another program in its place"
    clone.places.note.unlink()
    (clone.places.out / "times").unlink()
    assert clone.answer() == BUILT, "./fleetplan with a program without a note"
    change_times(built, 10)
    assert clone.answer() == BUILT._replace(calls=0), "./fleetplan with another time of the program"
    built.chmod(0o644)
    assert clone.answer() == BUILT, "./fleetplan with a program that is none"
    built.unlink()
    assert clone.answer() == BUILT, "./fleetplan without a program"


def test_builds(clone: Clone) -> None:
    """Wants tools/build to prove what the program is made of, and nothing else, and to say what is wrong."""
    files = sorted({*SOURCES, "crates/fleetplan/stdout"})
    status = clone.call("tools/build").status
    assert (status, clone.calls()) == (0, [" ".join(["ci", *files])]), "tools/build: what is proved"
    assert (clone.call("tools/build").status, clone.calls()) == (0, []), "tools/build once more"
    status = clone.call("tools/build", "--to-edit").status
    assert (status, [it.split()[0] for it in clone.calls()]) == (0, ["lib", "lib", "run"]), "tools/build --to-edit"
    assert clone.answer() == BUILT._replace(calls=0), "./fleetplan after it"
    assert clone.call("tools/build", "--edit").status == 2, "tools/build with another word"
    write(clone.top / SOURCE, "wrong\n")
    ended = clone.call("./fleetplan", "judge", ".")
    says = [it for it in ("rt: entries NOT PROVED", "crates/fleetplan/out/build.log", "the program was not built") if it not in ended.told]
    assert (ended.status, ended.lines, says) == (1, [], []), "./fleetplan where a proof fails"
    write(clone.top / SOURCE, SOURCES[SOURCE])
    clone.calls()
    assert clone.answer() == BUILT._replace(calls=0), "./fleetplan after the edit is undone"
    write(clone.top / SOURCE, "other\n")
    (clone.top / "bin" / "rt").unlink()
    ended = clone.call("./fleetplan", "judge", ".")
    if not shutil.which("rt", path=f"{os.path.dirname(sys.executable)}:/usr/bin:/bin"):
        assert (ended.status, ended.lines, "not on the PATH" in ended.told) == (1, [], True), "./fleetplan without rt"


def begin(clone: Clone) -> "subprocess.Popen[str]":
    """Begins a call of ./fleetplan, and waits until rt is called."""
    path = f"{clone.top / 'bin'}:{os.path.dirname(sys.executable)}:/usr/bin:/bin"
    called = clone.top / "called"
    begun = subprocess.Popen(
        ["./fleetplan", "judge", "."],
        cwd=clone.top,
        env={**os.environ, "PATH": path},
        stdout=subprocess.PIPE,
        stderr=subprocess.PIPE,
        encoding="utf-8",
    )
    while begun.poll() is None and not (called.exists() and called.stat().st_size):
        time.sleep(0.02)
    return begun


def test_together(clone: Clone) -> None:
    """Wants calls at once to build once, an edit meanwhile to be seen, and a call that is ended to end what it began."""
    write(clone.top / SOURCE, "slow\n")
    first = begin(clone)
    second = clone.answer()
    first.communicate()
    assert second == Answer("built slow judge", 3, 1), "./fleetplan twice at once"
    write(clone.top / SOURCE, "slow again\n")
    first = begin(clone)
    write(clone.top / SOURCE, "edited\n")
    said, _ = first.communicate()
    assert said == "built slow again judge\n", "./fleetplan with an edit meanwhile"
    clone.calls()
    assert clone.answer() == Answer("built edited judge", 3, 1), "./fleetplan after that edit"
    write(clone.top / SOURCE, "slow long\n")
    for number in (signal.SIGTERM, signal.SIGINT, signal.SIGHUP):
        first = begin(clone)
        first.send_signal(number)
        said, told = first.communicate(timeout=20)
        assert (first.returncode, said, "stopped: " in told) == (1, "", True), f"./fleetplan, ended by signal {number} in a build"
        assert [it.name for it in clone.top.glob("**/fleetplan-build-*")] == [], f"./fleetplan, ended by signal {number}: what is left"
        clone.calls()
    write(clone.top / SOURCE, "last\n")
    assert clone.answer() == Answer("built last judge", 3, 1), "./fleetplan after that"
