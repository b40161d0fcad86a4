"""What a caller has typed stays: files of a folder that aren't as `tables` made them, and those that a call reads. The sums of the files as
they were made stand in the folder's made.csv."""

import hashlib
import os
from pathlib import Path
from typing import Dict, Iterable, Mapping, NamedTuple, Sequence

from fleetplan.errors import FAULT, Unread
from fleetplan.settings import NAME as SETTINGS
from fleetplan.tables import TABLE, WRITTEN
from fleetplan.texts import some

# What `solve` and the caller's words change too, and what is renewed in part: they are written anew.
CHANGING = ("plan.csv", SETTINGS)
# The files that `tables` may write, and all that may stand in a folder of tables.
MADE = (*TABLE, "plan.csv", SETTINGS, "names.csv", "made.csv", "costs-parts.csv")
OWN = (*MADE, *WRITTEN)


class Keeping(NamedTuple):
    """The paths of files that a call reads, and whether it writes over what the caller has changed."""

    reads: Sequence[str] = ()
    is_anyway: bool = False


def sum_of(data: bytes) -> str:
    """Returns the sum of a file's bytes, by which it is known."""
    return hashlib.sha256(data).hexdigest()


def sums_of(texts: Mapping[str, str]) -> Dict[str, str]:
    """Returns the sums of files as they are made, by their names."""
    return {name: sum_of(text.encode("utf-8")) for name, text in texts.items() if name not in CHANGING}


def want_no_source(folder: str, names: Iterable[str], reads: Sequence[str]) -> None:
    """Raises Unread where a file that is read would be written over."""
    places = {os.path.realpath(os.path.join(folder, it)) for it in names}
    for it in reads:
        if os.path.realpath(it) in places:
            raise Unread.of(it, "can't be written: this call reads it, so it should be a file of another folder", FAULT)


def want_as_made(folder: str, texts: Mapping[str, str], made: Mapping[str, str]) -> None:
    """Raises Unread where a file that would be written over isn't as it was made, nor as it is to be."""
    changed = []
    for name, text in texts.items():
        path = os.path.join(folder, name)
        if name not in CHANGING and os.path.isfile(path):
            found = sum_of(Path(path).read_bytes())
            changed += [name] if found not in (made.get(name), sum_of(text.encode("utf-8"))) else []
    if changed:
        told = "isn't as tables made it: it stays" if len(changed) == 1 else "aren't as tables made them: they stay"
        raise Unread(f"{some(changed)} of {folder} {told}, and nothing is written; --anyway writes all", FAULT)


def want_together(folder: str, name: str, made: Mapping[str, str]) -> None:
    """Raises Unread where a file isn't the one that was made with the others of a folder. A folder that tells no sums may have any."""
    path = os.path.join(folder, name)
    if name in made and os.path.isfile(path) and sum_of(Path(path).read_bytes()) != made[name]:
        raise Unread.of(path, f"isn't of this {os.path.join(folder, 'legs.csv')}, it should be as tools/ssim tables made both")
