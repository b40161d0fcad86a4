"""tools/release, and how a release is compared, in a small clone with commands in the place of rt and of the gate."""

import os
from pathlib import Path
from typing import Callable, Dict, List, NamedTuple, Tuple

import pytest
from fleetplan import origin
from gate_tests.clones import SOURCE, Clone, write
from gate_tests.laying import lay, lay_command, run
from gate_tests.released import compared

# A gate that passes where rt does, and one that does something more.
GATE = "rt ci && echo '3 passed, 0 failed'"
WRONG: List[List[str]] = [[], ["one"], ["1"], ["1.0", "1.1"], ["../1.0"]]


class Way(NamedTuple):
    """What the gate does, and what is told where that is no release."""

    gate: str
    told: str


WAYS = {
    "fails": Way("echo '2 passed, 1 failed'; exit 1", "the gate didn't pass"),
    "leaves no program": Way("rm -f crates/fleetplan/out/fleetplan", "the gate left no program"),
    "leaves a program that doesn't run": Way(f"{GATE}; echo '#!/nowhere' > crates/fleetplan/out/fleetplan", "the gate left no program"),
    "changes a source": Way(f"{GATE}; echo more >> {SOURCE}", "the tree changed"),
    "leaves a file": Way(f"{GATE}; echo more > more", "the tree changed"),
}


def lay_out(clone: Clone) -> None:
    """Lays the gate and a first commit."""
    lay(clone.top, {".gitignore": "out/\n__pycache__/\ncalled\n"})
    lay_gate(clone, GATE)
    run(clone.top, "git", "init", "-q")
    commit(clone)


def lay_gate(clone: Clone, does: str) -> None:
    """Lays what stands for the gate."""
    lay_command(clone.top / ".ci" / "run", f'#!/bin/sh\ncd "$(dirname "$0")/.." || exit\n{does}\n')


def commit(clone: Clone) -> None:
    """Commits all that stands."""
    run(clone.top, "git", "add", "-A")
    run(clone.top, "git", "-c", "user.name=a", "-c", "user.email=a@example.org", "commit", "-q", "-m", "stand")


@pytest.fixture
def clone(scratch: Path) -> Clone:
    """A small clone."""
    return Clone(scratch)


def test_making(clone: Clone) -> None:
    """Wants a release to be made from a gate that passed, on a tree without changes."""
    lay_out(clone)
    for words in WRONG:
        assert (clone.call("tools/release", *words).status, clone.calls()) == (2, []), f"tools/release {' '.join(words)}"
    for name, way in WAYS.items():
        lay_gate(clone, way.gate)
        commit(clone)
        ended = clone.call("tools/release", "1.0")
        assert (ended.status, way.told in ended.told, clone.places.release.exists()) == (1, True, False), f"tools/release where the gate {name}"
        run(clone.top, "git", "checkout", "-q", ".")
        run(clone.top, "git", "clean", "-q", "-f")
    lay_gate(clone, GATE)
    ended = clone.call("tools/release", "1.0")
    assert (ended.status, "the tree has changes" in ended.told) == (1, True), "tools/release on a tree with changes"
    commit(clone)
    head = run(clone.top, "git", "rev-parse", "HEAD").lines[0]
    ended = clone.call("tools/release", "1.0")
    sums = [run(clone.top, "sha256sum", "crates/fleetplan/out/fleetplan").lines[0].split()[0], origin.source_sum(clone.places)]
    wanted = ["version: 1.0", f"commit: {head}", "kit: rattle-kit-of-tests", f"program: {sums[0]}", f"sources: {sums[1]}"]
    assert (ended.status, clone.places.manifest.read_text(encoding="ascii").splitlines()) == (0, wanted), "tools/release"
    commit(clone)


def test_comparing(clone: Clone, monkeypatch: pytest.MonkeyPatch) -> None:
    """The program that was built is compared with the released one of its sources."""
    lay_out(clone)
    monkeypatch.setenv("PATH", f"{clone.top / 'bin'}{os.pathsep}{os.environ['PATH']}")
    assert not compared(clone.places), "without a release"
    clone.call("tools/release", "1.0")
    assert list(compared(clone.places).values()) == [None, None]
    built, released, told = clone.places.program, clone.places.released, clone.places.manifest
    text, manifest = built.read_text(encoding="ascii"), told.read_text(encoding="ascii")
    plants: Dict[str, Tuple[Callable[[], object], List[bool]]] = {
        "another program is built": (lambda: write(built, f"{text}#"), [True, False]),
        "no program is built": (built.unlink, [True, False]),
        "the released program has a byte more": (lambda: write(released, f"{text}#"), [False, False]),
        "the manifest isn't whole": (lambda: write(told, manifest.replace("version", "verse")), [False]),
        "the manifest is missing": (told.unlink, [False]),
        "the kit is another": (lambda: write(told, manifest.replace("kit-of", "kit-before")), [True]),
        "the sources are others": (lambda: write(clone.top / SOURCE, "other\n"), []),
    }
    for name, (plant, wanted) in plants.items():
        plant()
        assert [why is None for why in compared(clone.places).values()] == wanted, name
        for file, was in ((built, text), (released, text), (told, manifest)):
            file.write_text(was, encoding="ascii")
