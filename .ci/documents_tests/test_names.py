"""No name of a definition comes into a further crate: those that stand in two crates or more are listed in .ci/shared_names."""

import subprocess
import sys
from pathlib import Path

import pytest
from naming import crates_in, differences, read, shared_names, told

TOP = Path(__file__).resolve().parent.parent.parent
LISTED = TOP / ".ci" / "shared_names"
# Two crates and a third that no crates.txt lists, with their definitions.
LAID = {
    "low/specs/Lib.antt": ["pub mod Here"],
    "low/specs/Here.antt": ["use A.{B}", "-- abbrev pub told : A", "abbrev pub both : A", "pub record Own : A where", "  pub both_of : A"],
    "high/specs/deep/There.antt": ["unfoldable pub both : A → A", "abbrev pub told : A", "pub record Inner : A where", "  pub both_of : A"],
    "high/specs/Other.antt": ["module _ {E : A} where", "  pub record Own : A where", "    pub alone : A"],
    "other/specs/Here.antt": ["abbrev pub told : A"],
}


def lay(top: Path) -> Path:
    """Lays crates."""
    (top / "crates.txt").write_text("# from below\nlow: std\nhigh prove=2: std low # a crate\n", encoding="utf-8")
    for name, lines in LAID.items():
        file = top / "crates" / name
        file.parent.mkdir(parents=True, exist_ok=True)
        file.write_text("".join(f"{it}\n" for it in lines), encoding="utf-8")
    return top


def test_none_new() -> None:
    """The names are those of the list, with their crates."""
    assert crates_in(TOP)
    assert not differences(shared_names(TOP), read(LISTED))


def test_listed_in_order() -> None:
    """The list stands as the script prints it."""
    lines = LISTED.read_text(encoding="utf-8").splitlines(keepends=True)
    listed = read(LISTED)
    assert "".join(it for it in lines if not it.startswith("#")) == told({it: listed[it] for it in sorted(listed)})


def test_laid(scratch: Path) -> None:
    """A name is found in whichever file of specs/ it is defined, and how. Fields and comments are none, and a crate counts that is listed."""
    assert shared_names(lay(scratch)) == {"Own": ["low", "high"], "both": ["low", "high"]}


def test_differences() -> None:
    """A name that comes, a crate that comes to one, and what goes are told."""
    names = {"new": ["a", "b"], "wider": ["a", "b", "c"], "same": ["a", "b"]}
    listed = {"wider": ["a", "b"], "same": ["a", "b"], "old": ["a", "c"]}
    wanted = ["new: a is new", "new: b is new", "wider: c is new", *(f"old: {it} has gone, so the list gets shorter" for it in "ac")]
    assert differences(names, listed) == wanted
    assert not differences(names, names)


def test_unread(scratch: Path) -> None:
    """A line of the list that says no crates isn't passed over."""
    (scratch / "list").write_text("# none\nboth: low, high\nOwn: low\n", encoding="utf-8")
    with pytest.raises(ValueError, match="list has a line"):
        read(scratch / "list")


def test_script() -> None:
    """The script prints the names and their number, and takes no words."""
    words = [sys.executable, "-B", str(TOP / ".ci" / "names")]
    ran = subprocess.run(words, stdin=subprocess.DEVNULL, stdout=subprocess.PIPE, check=True, encoding="utf-8")
    names = shared_names(TOP)
    assert ran.stdout == f"{told(names)}# {len(names)} names stand in two crates or more.\n"
    assert subprocess.run([*words, "no"], stdin=subprocess.DEVNULL, stderr=subprocess.DEVNULL, check=False).returncode == 2
