"""How each tool begins and ends: whatever happens, in one line, and without a traceback."""

import os
import resource
import shutil
import signal
import subprocess
import sys
import time
from pathlib import Path
from typing import Any, Dict, List, Sequence

import pytest
from gate_tests.clones import Clone

TOP = Path(__file__).resolve().parent.parent.parent
TOOLS = ["completion", "costs", "draw", "preview", "release", "scenarios/compare", "scenarios/step", "scenarios/table", "ssim", "words"]
# Words that each tool refuses.
WRONG: Dict[str, List[str]] = {"completion": ["no"], "costs": [], "draw": [], "preview": ["no"], "release": [], "words": ["./fleetplan", "no"]}
OLDER = "import runpy, sys; sys.version_info = (3, 7, 9, 'final', 0); sys.argv = sys.argv[1:]; runpy.run_path(sys.argv[0], run_name='__main__')"


def call(words: Sequence[object], **how: Any) -> "subprocess.CompletedProcess[bytes]":
    """Calls Python."""
    where = {**os.environ, "PYTHONDONTWRITEBYTECODE": "1", **how.pop("names", {})}
    pipes: Dict[str, Any] = {"stdin": subprocess.DEVNULL, "stdout": subprocess.PIPE, "stderr": subprocess.PIPE, **how}
    ran: "subprocess.CompletedProcess[bytes]" = subprocess.run([sys.executable, *map(str, words)], env=where, check=False, timeout=60, **pipes)
    return ran


def said(ran: "subprocess.CompletedProcess[bytes]") -> List[str]:
    """Returns the lines on standard error, none of which is of a traceback."""
    lines = (ran.stderr or b"").decode().splitlines()
    assert not [it for it in lines if "Traceback" in it or it.startswith("  File")], lines
    return lines


@pytest.mark.parametrize("stream", ["stdout", "stderr", "stdin"])
@pytest.mark.parametrize("how", ["closed", "full"])
@pytest.mark.parametrize("tool", TOOLS)
def test_streams(tool: str, how: str, stream: str, scratch: Path) -> None:
    """A stream that is closed or full is told, or nothing is; what a tool writes doesn't go there."""
    shutil.copytree(TOP / "examples" / "split", scratch / "split")
    number = {"stdin": 0, "stdout": 1, "stderr": 2}[stream]
    redirected = f"{number}>&-" if how == "closed" else f"{number}> /dev/full" if number else "0< /dev/full"
    wrong: List[str] = WRONG.get(tool, ["no"])
    for words in (["--help"], wrong):
        command = ["sh", "-c", f'exec "$@" {redirected}', "sh", sys.executable, "-B", str(TOP / "tools" / tool), *words]
        ran = subprocess.run(command, cwd=scratch, stdout=subprocess.PIPE, stderr=subprocess.PIPE, check=False, timeout=60)
        told = said(ran)
        if words == ["--help"] and stream == "stdout" and tool != "words":
            assert ran.returncode and len(told) == 1, told


def test_drawing_with_closed_streams(scratch: Path) -> None:
    """A page is drawn whole, though all streams are closed."""
    shutil.copytree(TOP / "examples" / "split", scratch / "split")
    command = [sys.executable, "-B", str(TOP / "tools" / "draw"), "split", "--day-start", "00:00"]
    ran = subprocess.run(["sh", "-c", 'exec "$@" 0<&- 1>&- 2>&-', "sh", *command], cwd=scratch, check=False, timeout=60)
    assert ran.returncode == 0
    assert (scratch / "split" / "plan.html").read_text(encoding="utf-8").rstrip().endswith("</html>")


@pytest.mark.parametrize("tool", TOOLS)
def test_older_python(tool: str) -> None:
    """An older Python is told, before anything of the tool is read."""
    ran = call(["-c", OLDER, TOP / "tools" / tool, "--help"], names={"PYTHONPATH": str(TOP / "tools")})
    name = tool.rpartition("/")[2]
    major, minor = sys.version_info[:2]
    assert (ran.returncode, said(ran)) == (1, [f"{name}: Python 3.8 or later is wanted, and this is 3.7"]), (major, minor)


@pytest.mark.parametrize("tool", TOOLS)
def test_other_modules(tool: str, scratch: Path) -> None:
    """Modules that PYTHONPATH names don't come in the place of the tool's own, nor of Python's."""
    for name in ("fleetplan", "steps", "csv", "difflib", "datetime", "costing", "drawing", "completing"):
        (scratch / f"{name}.py").write_text("raise SystemExit('another module')\n", encoding="ascii")
    for path in (str(scratch), f"{scratch}{os.pathsep}{TOP / 'tools'}", "."):
        ran = call([TOP / "tools" / tool, "--help"], cwd=scratch, names={"PYTHONPATH": path})
        assert ran.returncode == 0 and not said(ran), ran


def begun(code: str) -> "subprocess.CompletedProcess[bytes]":
    """Runs code behind what each tool begins with."""
    return call(["-c", f"import sys; sys.path.insert(0, {str(TOP / 'tools')!r}); sys.argv = ['tools/x']\nimport begin\n{code}"])


def test_faults() -> None:
    """What nothing else catches is told in one line, with its place."""
    ran = begun("def main(words):\n    return {}['a\\x1b\\n']\nbegin.run(main, None)")
    assert (ran.returncode, said(ran)) == (1, [r"x: this is a fault of the tool: KeyError at <string>:4: 'a\\x1b\\n'"])
    ran = begun("def main(words):\n    raise OSError(5, 'broken', 'a\\x1bb')\nbegin.run(main, None)")
    assert (ran.returncode, said(ran)) == (1, [r"x: a\x1bb: broken"])
    for code, status in (("raise MemoryError", 1), ("begin.run(lambda words: bytearray(1 << 62), None)", 8)):
        ran = begun(code)
        assert (ran.returncode, said(ran)) == (status, ["x: memory ran out"])


@pytest.mark.parametrize("code", ["import os, signal; os.kill(os.getpid(), signal.SIGINT)", "raise KeyboardInterrupt",
                                  "begin.run(lambda words: __import__('os').kill(__import__('os').getpid(), 2), None)"])  # fmt: skip
def test_interrupts(code: str) -> None:
    """A Ctrl-C ends a tool by its signal, silently, from its first line on."""
    ran = begun(code)
    assert (ran.returncode, ran.stdout, ran.stderr) == (-signal.SIGINT, b"", b"")


@pytest.mark.parametrize("sent", [signal.SIGINT, signal.SIGTERM, signal.SIGHUP])
def test_signals_while_it_reads(sent: int, scratch: Path) -> None:
    """A tool that waits for a file ends by a signal, and leaves nothing."""
    shutil.copytree(TOP / "examples" / "split", scratch / "split")
    os.mkfifo(scratch / "season")
    words = [sys.executable, "-B", str(TOP / "tools" / "ssim"), "tables", "/dev/stdin", str(scratch / "new"), "--date", "2026-11-30"]
    with subprocess.Popen(words, stdin=subprocess.PIPE, stdout=subprocess.PIPE, stderr=subprocess.PIPE) as ran:
        time.sleep(0.5)
        ran.send_signal(sent)
        _, told = ran.communicate(timeout=20)
    assert b"Traceback" not in told
    assert sorted(os.listdir(scratch)) == ["season", "split"]


def test_little_memory(scratch: Path) -> None:
    """Where memory is wanting a tool ends in one line."""
    shutil.copytree(TOP / "examples" / "split", scratch / "split")
    for most in (40, 60, 90, 130):
        limit = (most << 20, most << 20)
        ran = call([TOP / "tools" / "draw", scratch / "split"], preexec_fn=lambda: resource.setrlimit(resource.RLIMIT_AS, limit))
        lines = (ran.stderr or b"").decode("utf-8", "replace").splitlines()
        assert not [it for it in lines if "Traceback" in it] or most < 60, lines


STEPS: Dict[str, List[str]] = {
    "tables": ["p", "place", "100", "1", "0", "1", "legs.csv", "--"],
    "solve": ["p", "place", "100", "1", "0", "tables"],
    "check": ["p", "place", "100", "1", "0", "solved"],
    "sizes": ["p", "place", "100", "1", "0", "solved"],
    "draw": ["place", "0", "solved", "name"],
    "summary": ["scenarios.csv", "folder", "p"],
}


@pytest.mark.parametrize("name", STEPS)
def test_missing_words_of_a_step(name: str, scratch: Path) -> None:
    """A step without one of its words, with another number, or with one word more, isn't begun."""
    words = STEPS[name]
    wrong: List[List[str]] = [words[:count] for count in range(len(words))]
    wrong += [[*words[:2], "x", *words[3:]], [*words[:2], "\u00b2", *words[3:]]] if "100" in words else []
    wrong += [[*words, "more"]] if name not in ("tables", "solve") else []
    for it in wrong:
        ran = call([TOP / "tools" / "scenarios" / "step", name, *it], cwd=scratch)
        assert (ran.returncode, said(ran)[0][:11]) == (2, "usage: step"), it
    assert not os.listdir(scratch)


def test_relative_rt(scratch: Path) -> None:
    """An rt on a relative path is called where the proofs are made, too."""
    clone = Clone(scratch)
    ended = clone.call("tools/build", PATH=f"bin:{os.path.dirname(sys.executable)}:/usr/bin:/bin")
    assert (ended.status, clone.places.program.is_file()) == (0, True), ended.told


@pytest.mark.parametrize("tool", [*TOOLS, "build", "cited_lemmas", "hint", "ready", "rt_beside"])
def test_help(tool: str) -> None:
    """Each tool has its page, by Python 3.8 too, where pyenv has it."""
    for python in (sys.executable, *map(str, Path.home().glob(".pyenv/versions/3.8.*/bin/python3"))):
        ran = subprocess.run([python, "-B", TOP / "tools" / tool, "--help"], stdout=subprocess.PIPE, stderr=subprocess.PIPE, check=False)
        assert (ran.returncode, ran.stderr, b"usage" in ran.stdout) == (0, b"", True), python
