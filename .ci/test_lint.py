"""Whether all Python is typed, as mypy finds, and written as flake8 wants it. setup.cfg says what both ask for.

The files of a folder are asked about together, and those of another one apart, since some scripts have the same name."""

import subprocess
from pathlib import Path
from typing import List

import pytest

TOP = Path(__file__).resolve().parent.parent
# conftest.py at the top belongs to the last.
FOLDERS = ("tools", "bench", ".ci")
ASKED = {"mypy": ("mypy", "--no-error-summary"), "flake8": ("flake8", "--require-plugins", "flake8-docstrings")}


def python_in(folder: str) -> List[str]:
    """Returns the files of a folder that Python runs or imports."""
    found = sorted(it for it in (TOP / folder).rglob("*") if it.is_file() and "__pycache__" not in it.parts)
    found += [TOP / "conftest.py"] if folder == ".ci" else []
    files = [it for it in found if it.suffix == ".py" or not it.suffix and it.read_bytes()[:60].startswith(b"#!/usr/bin/env python3")]
    return [str(it.relative_to(TOP)) for it in files]


@pytest.mark.parametrize("folder", FOLDERS)
@pytest.mark.parametrize("asked", ASKED)
def test_silent(asked: str, folder: str) -> None:
    """Neither finds anything."""
    words = [*ASKED[asked], *python_in(folder)]
    ran = subprocess.run(words, cwd=TOP, stdin=subprocess.DEVNULL, stdout=subprocess.PIPE, stderr=subprocess.STDOUT, encoding="utf-8", check=False)
    assert not ran.stdout and not ran.returncode, ran.stdout
