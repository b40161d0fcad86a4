"""The tables of a scenario: those of the base with the scenario's own laid over them, judged to read, and changed."""

import os
import shutil
from typing import Optional, Sequence

from fleetplan.errors import Unread
from fleetplan.files import new_folder, remove, write
from fleetplan.records import table_of, text_of
from fleetplan.tables import HEADERS, LIMITED, headers_of
from steps.changes import read_change
from steps.changing import Tables
from steps.figures import FILES
from steps.flagged import flags_of, tables_in
from steps.running import Fault, Limits, run

# Either stands beside tables that can't be solved, and says why: since they are refused, or by a fault at the last try.
REFUSED, FAULT = "refused.txt", "fault.txt"
# The statuses by which words and tables are refused.
REFUSALS = (2, 6)


def lay(program: str, files: Sequence[str], texts: Sequence[str], period: str, place: str, limits: Limits, is_last: bool) -> None:
    """Makes the folder of the tables, from these files and with these changes. Before they are changed they repeat after `period` days,
    a word of the call."""
    with new_folder(place) as beside:
        for it in files:
            shutil.copyfile(it, os.path.join(beside, os.path.basename(it)))
        try:
            refusal = refused(program, beside, period, limits) or changed(beside, texts)
        except Fault as error:
            if not is_last:
                raise
            write(os.path.join(beside, FAULT), str(error))
            return
        for it in FILES:
            remove(os.path.join(beside, it))
        if refusal:
            write(os.path.join(beside, REFUSED), refusal)


def refused(program: str, folder: str, period: str, limits: Limits) -> Optional[str]:
    """Returns why the program refuses the tables of a folder or the period, or None where they read. It judges an empty plan, of which
    it tells a fault only where all tables read."""
    plan = os.path.join(folder, "plan.csv")
    write(plan, "")
    ran = run(program, ["judge", folder, f"--period={period}", *flags_of(folder)], limits)
    os.remove(plan)
    return ran.told if ran.status in REFUSALS else None


def changed(folder: str, texts: Sequence[str]) -> Optional[str]:
    """Changes the tables of a folder, and returns why that can't be done, or None."""
    if not texts:
        return None
    try:
        read = {it: table_of(folder, it, headers_of(it)) for it in tables_in(folder)}
    except Unread as error:
        return told(folder, texts[0], error)
    tables = Tables(folder, {it: rows for it, (_, rows) in read.items()})
    for text in texts:
        try:
            read_change(text).make(tables)
        except Unread as error:
            return told(folder, text, error)
    for name, rows in tables.items():
        header = read[name][0] if name in read else HEADERS[name]
        if name == "stations.csv" and len(rows[0] if rows else ()) == len(LIMITED):
            header = LIMITED
        write(os.path.join(folder, name), text_of(header, rows))
    return None


def told(folder: str, text: str, error: Unread) -> str:
    """Returns why a change can't be made. Files are named without the folder, which has another name at each try."""
    return f"{text}: {str(error).replace(os.path.join(folder, ''), '')}"
