"""Faults that are planted in the tools: a test notices each of them.

An edit of .ci/planted has the lines `file: FILE`, `old: TEXT`, `new: TEXT` and `test: WORDS`, and one before them that says what would go
wrong for a user. The text stands once in the file; a backslash with an n in it is the end of a line, and two are one. The words are those of
pytest for some tests that want no program. Each edit is tried in a copy of its own, several side by side."""

import os
import re
import shutil
import subprocess
import sys
import tempfile
from concurrent.futures import Future, ThreadPoolExecutor
from pathlib import Path
from typing import Any, Callable, Dict, Iterator, Optional

import pytest
from breaking import MEMORY

TOP = Path(__file__).resolve().parent.parent
EDITS = sorted(it.stem for it in (TOP / ".ci" / "planted").glob("*.edit"))
FORM = re.compile(r"# (\S.*\.)\nfile: (\S+)\nold: (.*)\nnew: (.*)\ntest: (\.ci/\S+( -k \w+)?)\n")
# What the tests read beside what they are.
COPIED = ("tools", "bench", ".ci", "examples", "docs", "conftest.py", "setup.cfg", "fleetplan", "crates.txt", "README.md", "CHANGELOG.md")
SECONDS = 300


class Edit:
    """An edit: the file, the text there and the one in its place, and the words of the tests that notice it."""

    def __init__(self, name: str) -> None:
        found = FORM.fullmatch((TOP / ".ci" / "planted" / f"{name}.edit").read_text(encoding="utf-8"))
        assert found, f"{name}.edit isn't written as edits are"
        self.file, self.words = found[2], found[5].split()
        self.old, self.new = (re.sub(r"\\(n|\\)", lambda it: "\n" if it[1] == "n" else "\\", text) for text in (found[3], found[4]))

    def plant(self, top: Path) -> None:
        """Puts the text into a copy, where the other one stands once."""
        text = (top / self.file).read_text(encoding="utf-8")
        assert text.count(self.old) == 1, f"the text stands {text.count(self.old)} times in {self.file}"
        (top / self.file).write_text(text.replace(self.old, self.new), encoding="utf-8")


def lay(top: Path) -> None:
    """Lays a copy of what the tests read."""
    for name in COPIED:
        if (TOP / name).is_dir():
            shutil.copytree(TOP / name, top / name, ignore=shutil.ignore_patterns("__pycache__", "rows", "planted"))
        else:
            shutil.copy2(TOP / name, top / name)
    (top / "crates").mkdir()


def ended(name: str) -> Optional[str]:
    """Returns what is wrong with an edit: that its tests pass, that they can't be run, or that they fail without it (`name` is the edit's,
    or that of its tests alone)."""
    is_planted = not name.startswith("without ")
    edit = Edit(name[0 if is_planted else len("without ") :])
    with tempfile.TemporaryDirectory(prefix="fleetplan-planted-", dir=MEMORY) as scratch:
        lay(Path(scratch))
        if is_planted:
            edit.plant(Path(scratch))
        words = [sys.executable, "-B", "-m", "pytest", "-x", *edit.words]
        how: Dict[str, Any] = {"stdin": subprocess.DEVNULL, "stdout": subprocess.PIPE, "stderr": subprocess.STDOUT, "timeout": SECONDS}
        ran = subprocess.run(words, cwd=scratch, env={**os.environ, "FLEETPLAN": "/nowhere"}, check=False, **how)
    said = ran.stdout.decode("utf-8", "replace")
    if ran.returncode == int(is_planted):
        return None
    return f"the tests end with {ran.returncode}: {' '.join(edit.words)}\n{said[-2000:]}"


@pytest.fixture(scope="session")
def tried(request: Any) -> Iterator[Callable[[str], Optional[str]]]:
    """What says how the tests of an edit end. All that are asked for are tried side by side."""
    names = [it.callspec.params["name"] for it in request.session.items if "tried" in getattr(it, "fixturenames", ())]
    with ThreadPoolExecutor(os.cpu_count()) as pool:
        running: Dict[str, Future[Optional[str]]] = {it: pool.submit(ended, it) for it in names}
        yield lambda name: running[name].result()
        for it in running.values():
            it.cancel()


@pytest.mark.parametrize("name", EDITS)
def test_noticed(name: str, tried: Callable[[str], Optional[str]]) -> None:
    """A test notices the fault."""
    assert not tried(name)


ALONE = {" ".join(Edit(it).words): it for it in EDITS}


@pytest.mark.parametrize("name", [f"without {it}" for it in ALONE.values()])
def test_unplanted(name: str, tried: Callable[[str], Optional[str]]) -> None:
    """The tests pass where nothing is planted."""
    assert not tried(name)
