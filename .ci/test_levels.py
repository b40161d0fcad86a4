"""What a level of each function that leads back to itself takes of the stack, as each compiler builds the program (bench/levels)."""

import subprocess
import sys
from pathlib import Path
from typing import Any

import pytest
from collecting import lacking, programs

TOP = Path(__file__).resolve().parent.parent


def pytest_generate_tests(metafunc: Any) -> None:
    """Asks about each program under test."""
    metafunc.parametrize("built", programs(metafunc.config), ids=lambda it: it.name)


def test_levels(built: Path) -> None:
    """Each has room for the deepest trees within the usual stack."""
    lacks = lacking(built)
    if lacks:
        pytest.fail(lacks, pytrace=False)
    words = [sys.executable, "-B", str(TOP / "bench" / "levels"), str(built)]
    ran = subprocess.run(words, stdin=subprocess.DEVNULL, stdout=subprocess.PIPE, stderr=subprocess.STDOUT, text=True, check=False)
    assert ran.returncode == 0, ran.stdout
