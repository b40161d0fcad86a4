"""The schedules of the examples as schedule files, in UTC and in local times: the tables made of them are the same again."""

from pathlib import Path

import pytest
from filed_schedules import differs
from ssim_tests.trying import TOP, call

FOLDERS = sorted(it.parent.name for it in (TOP / "examples").glob("*/legs.csv"))


@pytest.mark.parametrize("mode", "UL")
@pytest.mark.parametrize("name", FOLDERS)
def test_example(name: str, mode: str, scratch: Path) -> None:
    """An example comes back through a file."""
    assert not differs(TOP / "examples" / name, scratch, mode, call)
