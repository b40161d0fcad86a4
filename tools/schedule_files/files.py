"""Files of the caller's, read and judged, and files written whole."""

import os
from typing import Callable, Mapping, Optional, Sequence

from fleetplan import judged as judging
from fleetplan.errors import FAULT, Unread
from fleetplan.files import Data, locked, new_folder, told_of, write, write_all
from fleetplan.forms import Wrong
from fleetplan.judged import SAYING, Key
from fleetplan.records import PART, Rows, bytes_of, parts_of, read_table
from fleetplan.tables import Header
from schedule_files.layout import LENGTH, BadLine

# The most bytes of a schedule file: 999,999 lines and more.
MOST_BYTES = 1 << 30
# A file with so many lines more than its bytes have room for is none of schedules. No more are split.
MOST_SHORT = 100_000


def schedule_bytes(path: str) -> bytes:
    """Returns what stands in a schedule file, or raises Unread."""
    want_lines(path)
    return bytes_of(path, MOST_BYTES)


def want_lines(path: str) -> None:
    """Raises Unread where a file has a line that is far too long, or too many that are too short, before its lines are held."""
    length = lines = 0
    for part in parts_of(path, MOST_BYTES):
        ends = part.count(b"\n")
        if not ends and len(part) == PART:
            raise BadLine(path, lines + 1, f"the line has more than {PART} bytes", f"bytes 1 to {PART}", f"{LENGTH} bytes long")
        length, lines = length + len(part), lines + ends
        if lines - length // LENGTH > MOST_SHORT:
            raise Unread.of(path, f"has {lines:,} lines in {length:,} bytes, and each line of a schedule file has {LENGTH}")


def rows(path: str, *headers: Header) -> Rows:
    """Returns the records of a table below its header, which is one of some, as lists of texts, or raises Unread."""
    return read_table(path, headers, SAYING)[1]


def judged(path: str, header: Header, forms: Sequence[Wrong], key: Optional[Key] = None) -> Rows:
    """Returns the records of a table whose fields all have their form, each first field once, or each key."""
    return judging.judged(path, {header: forms}, key)[1]


def write_whole(path: str, data: Data) -> None:
    """Writes a file whole or not at all, into a folder that is there, or raises Unread."""
    folder, name = os.path.split(path)
    if not os.path.isdir(folder or ".") or not name:
        raise Unread.of(path, f"can't be written: {'it is a folder' if os.path.isdir(path) else 'its folder is missing'}", FAULT)
    want_no_folder(path)
    with told_of(path):
        write(path, data)


def write_tables(folder: str, texts: Mapping[str, Data], want: Callable[[], None] = lambda: None) -> None:
    """Writes files of a folder, or raises Unread: all or none. Who is killed meanwhile leaves a folder that doesn't read, since legs.csv is
    taken away first and put last; who writes there at the same time is waited for, and then `want` asks whether the files may be written. A
    folder that isn't there comes with its files."""
    for name in texts:
        want_no_folder(os.path.join(folder, name))
    with told_of(folder):
        if os.path.lexists(folder):
            with locked(folder):
                want()
                write_all(folder, texts, "legs.csv")
        else:
            with new_folder(folder) as beside:
                write_all(beside, texts)


def want_no_folder(path: str) -> None:
    """Raises Unread where a folder stands in the place of a file."""
    if os.path.isdir(path):
        raise Unread.of(path, "can't be written: it is a folder", FAULT)
