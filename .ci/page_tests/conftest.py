"""What the cases share: the plans that are drawn, and the browser."""

from pathlib import Path
from typing import Any, Iterator

import pytest

from page_tests.browsing import Browser, missing
from page_tests.plans import Desk


@pytest.fixture(scope="session")
def desk(tmp_path_factory: Any, program: Path) -> Desk:
    """Where plans are drawn."""
    return Desk(tmp_path_factory.mktemp("page"), str(program))


@pytest.fixture(scope="session")
def browser() -> Iterator[Browser]:
    """A browser, one for all cases."""
    lacking = missing()
    if lacking:
        pytest.skip(lacking)
    it = Browser()
    yield it
    it.driver.quit()
