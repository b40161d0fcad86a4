"""A small clone with a command in the place of rt, and calls in it."""

import contextlib
import os
import shutil
import subprocess
import sys
from pathlib import Path
from typing import List, NamedTuple

from fleetplan import origin
from gate_tests.laying import TOP, Ended, lay, lay_command, run

SOURCE = "crates/entries/src/list.rt"
SOURCES = {
    "crates.txt": "# what each stands on\nentries:\nmiddle: csv entries\nfleetplan: middle\nbeside: entries\n",
    "HANDLES": "Handles allowed: none.\n",
    SOURCE: "first\n",
    "crates/entries/specs/Lib.antt": "pub mod List\n",
    "crates/middle/src/lib.rt": "code\n",
    "crates/fleetplan/src/main.rt": "main\n",
}
OTHERS = {
    "crates/entries/must-fail/an-edit.edit": "file: src/list.rt\n",
    "crates/beside/src/lib.rt": "beside\n",
    "crates/fleetplan/stdout": "usage: words\n",
    "docs/page.md": "page\n",
}
# A program that says what it was made of, and the command of the call.
PROGRAM = '#!/bin/sh\n[ $# -gt 0 ] || { echo "usage: words"; exit 2; }\necho "%s" "$1"\nexit 3\n'
RELEASED = PROGRAM % "released"
# What it does is told by the source: it fails, takes its time, or builds the program.
RT = f"""#!/usr/bin/env python3
import os, pathlib, sys, time
sys.dont_write_bytecode = True
top = pathlib.Path(__file__).resolve().parent.parent
if sys.argv[1] == "version":
    sys.exit(print("rattle-kit-of-tests"))
with open(top / "called", "a") as called:
    called.write(" ".join([sys.argv[1], *sorted(str(it) for it in pathlib.Path().rglob("*") if it.is_file())]) + "\\n")
here = pathlib.Path() if sys.argv[1] == "ci" else pathlib.Path("../..")
text = (here / "{SOURCE}").read_text().split()
if "slow" in text:
    time.sleep(30 if "long" in text else 2)
if "wrong" in text:
    sys.exit(print("rt: entries NOT PROVED") or 1)
for name in ("entries", "middle", "fleetplan"):
    print(f"rt: {{name}} proved", flush=True)
if sys.argv[1] != "lib":
    made = here / "crates/fleetplan/out/fleetplan"
    made.parent.mkdir(parents=True, exist_ok=True)
    made.write_text({PROGRAM!r} % " ".join(["built", *text]))
    made.chmod(0o755)
print("3 passed, 0 failed")
"""


class Answer(NamedTuple):
    """What a call answers with, and how often rt was called for it."""

    text: str
    status: int
    calls: int


class Clone:
    """A small clone, and calls in it."""

    def __init__(self, top: Path) -> None:
        self.top, self.places = top, origin.Places(top)
        lay(top, {**SOURCES, **OTHERS})
        shutil.copy2(TOP / "fleetplan", top / "fleetplan")
        shutil.copytree(TOP / "tools", top / "tools", ignore=shutil.ignore_patterns("__pycache__"))
        lay_command(top / "bin" / "rt", RT)

    def release(self, text: str = RELEASED, **other: str) -> None:
        """Lays the released program of the sources as they stand. Values of its manifest may be others."""
        lay_command(self.places.released, text)
        sums = {"program": origin.sum_of(self.places.released) or "", "sources": origin.source_sum(self.places)}
        origin.write_lines(self.places.manifest, {"version": "1.0", "commit": "c", "kit": "rattle-kit-of-release", **sums, **other})

    def call(self, *words: str, **names: str) -> Ended:
        """Calls a command of the clone."""
        path = f"{self.top / 'bin'}:{os.path.dirname(sys.executable)}:/usr/bin:/bin"
        return run(self.top, *words, **{"PATH": path, "FLEETPLAN_BUILD": "", "FLEETPLAN_HINTS": "", **names})

    def told(self, *words: str) -> str:
        """Returns what a command says on standard error, where that is a terminal."""
        here, there = os.openpty()
        path = f"{self.top / 'bin'}:{os.path.dirname(sys.executable)}:/usr/bin:/bin"
        environment = {**os.environ, "PATH": path, "FLEETPLAN_BUILD": "", "FLEETPLAN_HINTS": ""}
        subprocess.run(words, cwd=self.top, env=environment, stdin=subprocess.DEVNULL, stdout=subprocess.DEVNULL, stderr=there, check=False)
        os.close(there)
        said = b""
        # At the end of a terminal that nobody has open a read fails.
        with contextlib.suppress(OSError):
            while True:
                said += os.read(here, 65536)
        os.close(here)
        return said.decode("utf-8", "replace").replace("\r\n", "\n")

    def calls(self) -> List[str]:
        """Returns what was noted of the calls of rt since the last time."""
        called = self.top / "called"
        lines = called.read_text(encoding="utf-8").splitlines() if called.exists() else []
        called.write_text("", encoding="utf-8")
        return lines

    def answer(self, **names: str) -> Answer:
        """Returns what ./fleetplan answers with."""
        ended = self.call("./fleetplan", "judge", ".", **names)
        return Answer("\n".join(ended.lines), ended.status, len(self.calls()))


def change_times(file: Path, seconds: float) -> None:
    """Moves the time of a file."""
    moved = file.stat().st_mtime + seconds
    os.utime(file, (moved, moved))


def write(file: Path, text: str) -> Path:
    """Writes a file that keeps its time, as a program that unpacks files may, and returns it."""
    was = file.stat()
    file.write_text(text, encoding="utf-8")
    os.utime(file, ns=(was.st_atime_ns, was.st_mtime_ns))
    return file


def link(file: Path, to: Path) -> None:
    """Puts a link in the place of a file."""
    file.unlink()
    file.symlink_to(to)
