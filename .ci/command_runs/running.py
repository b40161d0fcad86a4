"""Runs the commands of a file in their order, by sh, in a folder of their own: without a terminal, or each in one.

In the folder lie ./fleetplan with the program, tools/, examples/, and given/, a second copy of the examples. Nothing outside it is written,
and nothing is built. Without a terminal output and errors are one text, without hints."""

import os
import re
import shutil
import signal
import sys
import tempfile
from pathlib import Path
from typing import Callable, Dict, List, Optional, Sequence, Tuple

import pexpect
from command_runs.reading import TOP, Case
from fleetplan.origin import BUILT, Places, source_sum, write_note
from fleetplan.program import BESIDE, Runner, TooLate

SECONDS = 120
# On a slow machine the line of the elapsed time comes and goes before an answer.
CLOCK = re.compile(r"(\rfleetplan: \w+ has run for [0-9:]+ \(Ctrl-C ends it\))+\r {60}\r")
# What runs a command in a folder, and returns what it printed and its status, as a shell tells it.
Shell = Callable[[str, Path], Tuple[str, int]]


def lay(scratch: Path, program: Path) -> None:
    """Lays out the folder that the commands run in."""
    built = scratch / "crates" / "fleetplan" / "out"
    built.mkdir(parents=True)
    for name in ("fleetplan", "crates.txt", "README.md", "CHANGELOG.md"):
        shutil.copy(TOP / name, scratch / name)
    for name, source in (("tools", "tools"), ("examples", "examples"), ("given", "examples")):
        shutil.copytree(TOP / source, scratch / name, ignore=shutil.ignore_patterns("__pycache__"))
    shutil.copy(program, built / "fleetplan")
    os.chmod(built / "fleetplan", 0o755)
    # ./fleetplan builds where no note tells that the program is of the sources that lie beside it.
    places = Places(scratch)
    write_note(places, source_sum(places), BUILT)


def where(folder: Path, **more: str) -> Dict[str, str]:
    """Returns the environment of a command."""
    return {"PATH": f"{os.path.dirname(sys.executable)}:/usr/bin:/bin", "HOME": str(folder), "LANG": "C.UTF-8", **more}


def run(words: Sequence[str], folder: Path, **names: str) -> Tuple[str, int]:
    """Runs a command without a terminal, and returns what it printed, errors and all, and its status."""
    try:
        ran = Runner(words[0], SECONDS, cwd=folder, env=names or None, stderr=BESIDE).run(*words[1:])
    except TooLate:
        return f"it had not ended after {SECONDS} seconds\n", -1
    return ran.text, ran.status


def in_shell(command: str, folder: Path) -> Tuple[str, int]:
    """Runs a command without a terminal."""
    return run(["sh", "-c", command], folder, **where(folder, FLEETPLAN_HINTS="0"))


def typed_in_terminal(command: str, folder: Path, keys: str = "", after: float = 0.0) -> Tuple[str, int]:
    """Runs a command in a terminal of its own, where keys are typed after some seconds."""
    # A gate that runs in the background has Ctrl-C ignored, and what it starts would too.
    child = pexpect.spawn(
        "sh", ["-c", command], cwd=str(folder), env=where(folder, TERM="xterm"), timeout=SECONDS, encoding="utf-8", codec_errors="replace",
        preexec_fn=lambda: signal.signal(signal.SIGINT, signal.SIG_DFL),
    )  # fmt: skip
    child.delaybeforesend = None
    if keys and child.expect([pexpect.EOF, pexpect.TIMEOUT], timeout=after):
        child.send(keys)
    child.expect([pexpect.EOF, pexpect.TIMEOUT])
    text: str = child.before.replace("\r\n", "\n")
    child.ptyproc.delayafterclose = 0
    child.close(force=True)
    return text, child.exitstatus if child.signalstatus is None else 128 + child.signalstatus


def in_terminal(command: str, folder: Path) -> Tuple[str, int]:
    """Runs a command in a terminal of its own, where the line of the elapsed time doesn't count."""
    text, status = typed_in_terminal(command, folder)
    return CLOCK.sub("", text), status


class Run:
    """The commands of a file in their order, in a folder that is laid for the first of them."""

    def __init__(self, cases: Sequence[Case], program: Path, shell: Shell) -> None:
        self.cases, self.program, self.shell = cases, program, shell
        self.folder: Optional[tempfile.TemporaryDirectory[str]] = None
        self.faults: List[Optional[str]] = []

    def fault(self, at: int) -> Optional[str]:
        """Returns how what comes of a command differs from what is wanted, or None. The commands before it are run first."""
        if self.folder is None:
            self.folder = tempfile.TemporaryDirectory(prefix="fleetplan-commands-")
            lay(Path(self.folder.name), self.program)
        for case in self.cases[len(self.faults) : at + 1]:
            self.faults.append(self._differs(case, Path(self.folder.name)))
        return self.faults[at]

    def end(self) -> None:
        """Takes the folder away."""
        if self.folder:
            self.folder.cleanup()

    def _differs(self, case: Case, folder: Path) -> Optional[str]:
        text, status = self.shell(case.command, folder)
        if case.is_met_by(text, status):
            return None
        wanted = "anything\n" if case.text is None else case.text
        return f"{case.command}\nwanted, with status {case.status}:\n{wanted}came, with status {status}:\n{text}"
