"""Files of a caller's, each field judged by its form, and each record by what stands there once."""

from typing import Callable, List, Mapping, Optional, Sequence, Set, Tuple

from fleetplan.errors import Unread
from fleetplan.forms import Wrong
from fleetplan.records import Rows, Saying, read_table
from fleetplan.tables import Header
from fleetplan.texts import printed

# What stands once in a table, by a record.
Key = Callable[[List[str]], Tuple[object, ...]]
SAYING = Saying(
    "record 1: {printed}, it should be {wanted}",
    "record {number}: {printed}, it should be {width} fields",
    "should be a table of plain letters and digits",
    "is empty, it should begin with {wanted}",
    "ascii",
)


def judged(path: str, headers: Mapping[Header, Sequence[Wrong]], key: Optional[Key] = None, most: Optional[int] = None) -> Tuple[Header, Rows]:
    """Returns which of its headers, each with the forms of its fields, a table has, and its records, at most so many, whose fields all have
    their form: each first field once, or each key; or raises Unread."""
    known: Set[Tuple[object, ...]] = set()
    header, found = read_table(path, list(headers), SAYING)
    for number, row in enumerate(found, 2):
        for name, text, wrong in zip(header, row, headers[header]):
            why = wrong(text)
            if why:
                raise Unread.at(path, number, f'{name} is "{printed(text)}": {why}', name)
        own = key(row) if key else (row[0],)
        if own in known:
            raise Unread.at(path, number, f"{' '.join(map(str, own))} stands twice, it should stand once", header[0])
        known.add(own)
        if most is not None and number - 1 > most:
            raise Unread.at(path, number, f"it has more than {most:,} records below its header")
    return header, found
