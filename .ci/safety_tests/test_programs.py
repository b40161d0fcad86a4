"""The summary of a run names a program that isn't the clone's own, with its sum."""

import contextlib
import hashlib
import io
import os
from pathlib import Path
from unittest import mock

import pytest
from safety_tests.trying import call
from scenario_tests.laid import lay_run, optimal
from steps import summary
from steps.listing import scenarios_of

LISTED = "scenario,words,folder,changes\na,,,\n"
OWN, OTHER = b"own", b"\x7fELF another"


def told(folder: Path, program: str) -> str:
    """Returns what a summary by a program tells, where the clone's own is `own`."""
    said, before = io.StringIO(), os.getcwd()
    os.chdir(folder)
    try:
        with mock.patch.object(summary, "PROGRAM", str(folder / "own")), contextlib.redirect_stderr(said):
            assert summary.summarize(scenarios_of("scenarios.csv"), "scenarios", program)
    finally:
        os.chdir(before)
    return said.getvalue()


@pytest.mark.parametrize("name", ["own", "./own", "link", "copy"])
def test_own_program(name: str, scratch: Path) -> None:
    """The clone's own isn't named, nor is a link to it, or a copy."""
    lay_run(scratch, LISTED, {"a": optimal(70)})
    (scratch / "own").write_bytes(OWN)
    (scratch / "copy").write_bytes(OWN)
    (scratch / "link").symlink_to("own")
    assert told(scratch, name) == "1 scenarios: 1 optimal. Each proof holds (1).\n"
    assert "another program" not in (scratch / "summary.html").read_text(encoding="utf-8")


@pytest.mark.parametrize("name", ["other", "<b>&'\"", "a\x1b[31mb\nc", "a\udce9b"], ids=ascii)
def test_other_program(name: str, scratch: Path) -> None:
    """Another one is, on the terminal and at the head of the page, whatever its name."""
    lay_run(scratch, LISTED, {"a": optimal(70)})
    (scratch / "own").write_bytes(OWN)
    (scratch / os.fsencode(name).decode("utf-8", "surrogateescape")).write_bytes(OTHER)
    first, *rest = told(scratch, name).splitlines()
    assert first.startswith(f"By another program than this clone's own: {scratch}/") and first.isprintable()
    assert first.endswith(f" (sha256 {hashlib.sha256(OTHER).hexdigest()}).") and rest == ["1 scenarios: 1 optimal. Each proof holds (1)."]
    page = (scratch / "summary.html").read_text(encoding="utf-8")
    assert f"(sha256 {hashlib.sha256(OTHER).hexdigest()})" in page and "<b>&" not in page and "\x1b" not in page


def test_step(scratch: Path) -> None:
    """The step of a run passes the program on, also one that isn't there any more."""
    lay_run(scratch, LISTED, {"a": optimal(70)})
    ended = call(["scenarios/step", "summary", "scenarios.csv", "scenarios", "gone"], scratch)
    wanted = f"By another program than this clone's own: {scratch}/gone (sha256 none: No such file or directory)."
    assert (ended.status, ended.told) == (0, [wanted, "1 scenarios: 1 optimal. Each proof holds (1)."])
