"""trials/run, with a command in the place of rt that answers by the name of an edit."""

import os
import shutil
from pathlib import Path
from typing import Dict, List, Optional

import pytest
from gate_tests.laying import TOP, Ended, lay, lay_command, run

CRATES = "low:\nmiddle: low\nhigh: middle\nbeside:\nbare: low\n"
# Each edit is refused, but for those whose names say something else.
RT = """#!/usr/bin/env python3
import sys
from pathlib import Path

ENDS = {"weak": "NOT REFUSED: the crate is still proved", "bad": "BAD EDIT: its text does not stand", "lost": "NOT TRIED: its check was killed"}
print("rt: a line that tells of no edit")
for crate in sys.argv[2:]:
    for edit in sorted(Path("crates", crate, "must-fail").iterdir()):
        if edit.stem != "unsaid":
            print(f"rt: must-fail {crate}/{edit.name}: {ENDS.get(edit.stem, 'refused, as it must be: src/lib.rt')}")
"""
EDITS = ("low/one", "low/two", "middle/one", "high/three", "beside/one")
# Files that change, and which edits are then tried.
CHANGES: Dict[str, List[str]] = {
    "crates/middle/src/lib.rt": ["high/three", "middle/one"],
    "crates/low/specs/New.antt": ["high/three", "low/one", "low/two", "middle/one"],
    "crates/low/must-fail/of-the-gate.edit": [],
    "trials/middle/one.edit": ["middle/one"],
    "trials/middle/README.md": [],
    "docs/page.md": [],
}


def lay_out(top: Path) -> None:
    """Lays a repository with five crates, four of which have trials, and makes its first commit."""
    lay(top, {"crates.txt": CRATES, ".gitignore": "out/\n"})
    lay(top, {f"crates/{name}/src/lib.rt": "// code\n" for name in ("low", "middle", "high", "beside", "bare")})
    lay(top, {f"trials/{edit}.edit": "file: src/lib.rt\nold: code\nnew: other\n" for edit in EDITS})
    lay(top, {"crates/low/must-fail/of-the-gate.edit": "file: src/lib.rt\nold: code\nnew: other\n"})
    lay_command(top / "bin" / "rt", RT)
    shutil.copy2(TOP / "trials" / "run", top / "trials" / "run")
    run(top, "git", "init", "-q")
    commit(top)


def commit(top: Path) -> None:
    """Commits all that stands."""
    run(top, "git", "add", "-A")
    run(top, "git", "-c", "user.name=a", "-c", "user.email=a@example.org", "commit", "-q", "-m", "stand")


def call(top: Path, *words: str) -> Ended:
    """Calls trials/run with the command in the place of rt."""
    return run(top, str(top / "trials" / "run"), *words, PATH=f"{top / 'bin'}{os.pathsep}{os.environ['PATH']}")


def tried(ended: Ended) -> List[str]:
    """Returns the edits that a call tried."""
    return [line.split("\t")[1] for line in ended.lines[:-1]]


def want(name: str, ended: Ended, edits: Optional[List[str]], status: int = 0) -> None:
    """Wants a call to have tried some edits, all of them refused, and to have a status."""
    last = f"{len(edits or ())} refused, 0 NOT REFUSED, 0 BAD EDIT, 0 NOT TRIED"
    wanted = (status, [] if edits is None else edits, last if edits is not None else "")
    assert (ended.status, tried(ended) if ended.lines else [], (ended.lines or [""])[-1]) == wanted, f"trials/run {name}"


@pytest.fixture
def top(scratch: Path) -> Path:
    """A repository with trials."""
    lay_out(scratch)
    return scratch


def test_words(top: Path) -> None:
    """Wants right words to name edits, and wrong ones to end with 2."""
    everything = sorted(EDITS)
    want("", call(top), everything)
    want("low high", call(top, "low", "high"), ["high/three", "low/one", "low/two"])
    want("--only one", call(top, "--only", "one"), ["beside/one", "low/one", "middle/one"])
    want("--only one low", call(top, "--only", "one", "low"), ["low/one"])
    for words in (
        ["bare"],
        ["../crates/low"],
        ["--only", "four"],
        ["--only", "three", "low"],
        ["--only"],
        ["--part", "0/2"],
        ["--part", "3/2"],
        ["--part", "half"],
        ["--changed", "no-commit"],
        ["--changed"],
        ["--other"],
    ):
        ended = call(top, *words)
        want(" ".join(words), ended, None, 2)
        assert ended.told.startswith("trials/run: "), f"trials/run {' '.join(words)} says what is wrong"


def test_parts(top: Path) -> None:
    """Wants the shares to make the whole, none twice, and an edit more to move no other."""
    shares = [tried(call(top, "--part", f"{k}/3")) for k in (1, 2, 3)]
    assert sorted(it for share in shares for it in share) == sorted(EDITS), "trials/run --part: the whole"
    want("--part 1/1", call(top, "--part", "1/1"), sorted(EDITS))
    lay(top, {"trials/beside/another.edit": "file: src/lib.rt\nold: code\nnew: other\n"})
    grown = [[it for it in tried(call(top, "--part", f"{k}/3")) if it != "beside/another"] for k in (1, 2, 3)]
    (top / "trials" / "beside" / "another.edit").unlink()
    assert grown == shares, "trials/run --part: with one edit more"
    both = [tried(call(top, "--part", f"{k}/2", "--only", "one", "low", "beside")) for k in (1, 2)]
    assert sorted(both[0] + both[1]) == ["beside/one", "low/one"], "trials/run --part with other words"


def test_changes(top: Path) -> None:
    """Wants what changed since a commit to be tried, with what stands on it."""
    want("--changed with no change", call(top, "--changed", "HEAD"), [])
    for file, edits in CHANGES.items():
        lay(top, {file: "changed\n"})
        want(f"--changed with another {file}", call(top, "--changed", "HEAD"), edits)
        commit(top)
        want(f"--changed with {file} in a commit", call(top, "--changed", "HEAD~1"), edits)
        want(f"--changed with {file} before", call(top, "--changed", "HEAD"), [])
    want("--changed --only", call(top, "--changed", "HEAD~6", "--only", "one"), ["low/one", "middle/one"])
    lay(top, {"crates.txt": CRATES.replace("high: middle", "high: beside")})
    want("--changed with another line of crates.txt", call(top, "--changed", "HEAD"), ["high/three"])
    (top / "crates" / "beside" / "src" / "lib.rt").unlink()
    want("--changed with a file less", call(top, "--changed", "HEAD"), ["beside/one", "high/three"])


def test_ends(top: Path) -> None:
    """Wants each edit that isn't refused to be counted, and to have the status 1."""
    ends = {
        "weak": "0 refused, 1 NOT REFUSED, 0 BAD EDIT, 0 NOT TRIED",
        "bad": "0 refused, 0 NOT REFUSED, 1 BAD EDIT, 0 NOT TRIED",
        "lost": "0 refused, 0 NOT REFUSED, 0 BAD EDIT, 1 NOT TRIED",
        "unsaid": "0 refused, 0 NOT REFUSED, 0 BAD EDIT, 0 NOT TRIED",
    }
    for name, last in ends.items():
        file = f"trials/low/{name}.edit"
        lay(top, {file: "file: src/lib.rt\nold: code\nnew: other\n"})
        ended = call(top, "--only", name)
        (top / file).unlink()
        assert (ended.status, ended.lines[-1]) == (1, last), f"trials/run with an edit that ends as {name}"
        assert "tells of no edit" in ended.told, f"trials/run tells what else rt said of {name}"
    assert "".join(run(top, "git", "status", "--short").lines) == "", "trials/run leaves the checkout as it is"
