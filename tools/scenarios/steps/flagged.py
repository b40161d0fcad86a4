"""The tables that a call reads only where a flag of it says so, and what a plan makes of them."""

import os
from typing import Dict, List, Optional, Sequence, Tuple

from fleetplan.records import Rows, table_of
from fleetplan.tables import ASKED, HEADERS, NO_FLEET, SHIFTED, TABLES

# Of each flag its table.
FLAGGED = {f"--{option}": name for option, name in ASKED.items()}


def flags_of(folder: str) -> List[str]:
    """Returns the flags by which a folder's tables are read, where it holds no table that isn't to be read."""
    return [flag for flag, name in FLAGGED.items() if os.path.lexists(os.path.join(folder, name))]


def tables_in(folder: str) -> List[str]:
    """Returns the names of the tables that stand in a folder of a scenario."""
    return [*TABLES, *(FLAGGED[it] for it in flags_of(folder))]


def planned(folder: str) -> Rows:
    """Returns the records of a folder's plan."""
    return table_of(folder, "plan.csv", (HEADERS["plan.csv"], SHIFTED))[1]


def choice_of(rows: Rows) -> Dict[str, str]:
    """Returns of each flight of a plan its fleet, or `-`."""
    return {it[0]: it[1] for it in rows}


def moved_and_left_out(rows: Rows, words: Sequence[str]) -> Tuple[Optional[int], Optional[int]]:
    """Returns how many legs of a plan depart at another time than their own, and how many it leaves out; None of each where the words of
    the call don't let it."""
    moved = sum(it[2] != "0" for it in rows) if "--windows" in words else None
    left_out = sum(it[1] == NO_FLEET for it in rows) if "--optional" in words else None
    return moved, left_out
