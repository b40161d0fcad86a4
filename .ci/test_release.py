"""The released program, and the one that rt ci has built."""

from pathlib import Path

import pytest
from fleetplan.origin import Places
from gate_tests.released import compared


def test_release() -> None:
    """Where release/MANIFEST tells the sum of the sources as they stand, release/fleetplan has the sum that is told there, and the program in
    crates/fleetplan/out is the same, byte for byte, where the kit is the manifest's."""
    found = compared(Places(Path(__file__).resolve().parent.parent))
    if not found:
        pytest.skip("there is no release of these sources")
    assert not {name: why for name, why in found.items() if why}
