"""The program that rt ci has built beside the released one."""

import subprocess
from typing import Dict, Optional

from fleetplan import origin


def kit_here() -> str:
    """Returns the kit that proves here."""
    try:
        ran = subprocess.run(["rt", "version"], stdin=subprocess.DEVNULL, stdout=subprocess.PIPE, timeout=60, check=True, encoding="utf-8")
    except (OSError, subprocess.SubprocessError):
        return "none"
    return ran.stdout.strip()


def differs_at(one: bytes, other: bytes) -> Optional[int]:
    """Returns the first byte in which two programs differ, or None where they are the same."""
    if one == other:
        return None
    return next((at for at, (a, b) in enumerate(zip(one, other)) if a != b), min(len(one), len(other)))


def compared(places: origin.Places) -> Dict[str, Optional[str]]:
    """Returns what is compared of a release of these sources, each with what is wrong (None: nothing). Where there is none of these sources
    that is nothing at all, and where the kit is another the programs aren't compared."""
    manifest = origin.read_manifest(places)
    if manifest is None:
        if places.manifest.exists() or places.released.exists():
            return {"release/MANIFEST": f"it should have one line for each of {', '.join(origin.Manifest._fields)}"}
        return {}
    if manifest.sources != origin.source_sum(places):
        return {}
    came = origin.sum_of(places.released)
    found = {"the sha256 of release/fleetplan": None if came == manifest.program else f"it is {came}, and the manifest has {manifest.program}"}
    if kit_here() == manifest.kit:
        built, released = (file.read_bytes() if file.is_file() else b"" for file in (places.program, places.released))
        at = differs_at(built, released)
        found["the program that rt ci has built"] = None if at is None else f"it differs from release/fleetplan at byte {at}"
    return found
