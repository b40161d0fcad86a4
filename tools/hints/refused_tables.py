"""What is said of a table that doesn't read (status 6): the record as it stands, what is wrong in it, and what would do."""

import os
import re
from typing import Dict, List, Optional, Sequence, Tuple

from fleetplan.records import Record
from fleetplan.tables import MOST_BYTES
from fleetplan.texts import counted, plain, quietly
from hints.headers import explain_header
from hints.saying import Hint, Where
from hints.table_faults import Looked, Told, place

SECTION = "what-is-wrong-with-a-table-kinds-1-to-14"
REFUSAL = re.compile(r"bad input: (\S+) record (\d+) kind (\d+)")
MEANS = {
    1: "the first record of this file isn't its header",
    2: "this record has too many or too few fields",
    3: "a field of this record isn't UTF-8",
    4: "a field of this record hasn't its form, or is out of its range",
    5: "what this record names stands in an earlier record too",
    6: "this record names a station that stations.csv doesn't have",
    7: "this record names a flight that legs.csv doesn't have",
    8: "this record names a fleet that fleets.csv doesn't have",
    9: "this flight arrives in the minute in which it departs",
    10: "this flight arrives at the station that it departs from",
    11: "the file has more records than it may have, and this is the first of them",
    12: "the file is too long",
    13: "this flight may depart at more times than a flight may have, and this record is the first of them",
    14: "with this record there are more flights with a fleet at a time than there may be",
}
# Of each kind that a record has by itself what further records have.
REST = {
    2: "too many or too few fields",
    3: "a field that isn't UTF-8",
    4: "a wrong {column}",
    5: "what stands in an earlier record",
    6: "a station that stations.csv doesn't have",
    7: "a flight that legs.csv doesn't have",
    8: "a fleet that fleets.csv doesn't have",
    9: "one time of departure and arrival",
    10: "one station at both ends",
}
# How many further faults are told one by one.
MOST_OTHERS = 10


def explain(hint: Hint, folder: str, said: str, period: int) -> None:
    """Says what the line of a refused table means, with what stands there."""
    found = REFUSAL.fullmatch(said)
    if not found or int(found[3]) not in MEANS:
        return
    name, number, kind = found[1], int(found[2]), int(found[3])
    path = os.path.join(folder, name)
    if kind in (1, 12):
        told = quietly(explain_header, path, name, period) if kind == 1 else quietly(too_long, path)
        show(hint, path, None, [Told(it) for it in told or [MEANS[kind]]])
    else:
        table = quietly(Looked, folder, name, period)
        record, faults = table and quietly(look, table, number, kind) or (None, [Told(MEANS[kind])])
        show(hint, path, record, faults)
        if record and kind in REST:
            quietly(tell_others, hint, table, number)
    hint.see("limits" if kind in (11, 12, 13, 14) else SECTION)


def show(hint: Hint, path: str, record: Optional[Record], faults: Sequence[Told]) -> None:
    """Says what is wrong with a record, where it stands, and shows it."""
    first, *others = faults
    text = f"{path}, {place(record)}: {first.text}" if record else first.text
    hint.fault(text, Where(path, record.line if record else None, first.column, first.found, first.wanted))
    if record:
        hint.show(plain(str(record)))
    for it in (*first.more, *(text for other in others for text in (other.text, *other.more))):
        hint.say(it)


def too_long(path: str) -> List[str]:
    """Says how many bytes a file has, or nothing where it isn't too long (any more)."""
    size = os.stat(path).st_size
    return [f"{path} has {size:,} bytes, and may have {MOST_BYTES:,}"] if size > MOST_BYTES else []


def look(table: Looked, number: int, kind: int) -> Optional[Tuple[Record, List[Told]]]:
    """Returns the record and what is wrong with it, or nothing where the file doesn't show this fault (any more)."""
    record = table.record(number)
    found = table.faults(record, [kind]) if record else None
    return (record, found[1]) if record and found else None


def tell_others(hint: Hint, table: Looked, number: int) -> None:
    """Says which later records of the table are wrong too: the first ones by their lines, and how many more there are."""
    rest: Dict[str, int] = {}
    for at, (record, kind, told) in enumerate(table.later_faults(number)):
        if at < MOST_OTHERS:
            hint.fault(f"{place(record)}: {told.text}", Where(table.path, record.line, told.column, told.found, told.wanted))
            table.only_counts = at + 1 == MOST_OTHERS
        else:
            text = REST[kind].format(column=told.column)
            rest[text] = rest.get(text, 0) + 1
    for text, count in rest.items():
        hint.fault(f"and {counted(count, 'more record has', 'more records have')} {text}", Where(table.path))
