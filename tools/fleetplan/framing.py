"""Tables as frames of pandas, for those who have it."""

import os
from typing import Any, Dict, Mapping

from fleetplan.files import told_of, write_all
from fleetplan.records import text_of
from fleetplan.schedule import Schedule


def frames(schedule: Schedule) -> Dict[str, Any]:
    """Returns the tables of a schedule as frames of texts, by their names. It raises ImportError where pandas isn't there."""
    import pandas

    return {name: pandas.DataFrame(rows, columns=list(header)) for name, (header, rows) in schedule.rows().items()}


def write_frames(folder: str, tables: Mapping[str, Any]) -> None:
    """Writes frames as tables into a folder, each whole or not at all, and makes it where it isn't there. It raises Unread where one can't
    be written."""
    with told_of(folder):
        os.makedirs(folder, exist_ok=True)
        write_all(folder, {name: text_of(tuple(it.columns), it.values.tolist()) for name, it in tables.items()})
