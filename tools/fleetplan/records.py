"""The files of a folder, read as the program reads them, and written: bytes, records and fields."""

import csv
import io
import os
import stat
from typing import Iterable, Iterator, List, NamedTuple, NoReturn, Optional, Sequence, Tuple

from fleetplan.errors import FAULT, Unread
from fleetplan.tables import MOST_BYTES, Header, headers_of
from fleetplan.texts import printed

MARK = b"\xef\xbb\xbf"
Rows = List[List[str]]
# Of a long file so many bytes are looked at once.
PART = 1 << 20


class Record(NamedTuple):
    """A record of a file: its fields as bytes, its number, which begins at 1, and the lines that it begins and ends in."""

    fields: List[bytes]
    number: int
    line: int
    last: int

    @property
    def texts(self) -> List[str]:
        """The fields as text, where each byte that isn't UTF-8 stands for itself."""
        return [it.decode("utf-8", "backslashreplace") for it in self.fields]

    def __str__(self) -> str:
        return ",".join(self.texts)


class Saying(NamedTuple):
    """How faults of a table are told behind its path: another header, another number of fields, letters, and an empty file."""

    header: str
    width: str
    letters: str
    empty: str
    encoding: str = "utf-8"


_PLAINLY = Saying("doesn't begin with {wanted}", "record {number} hasn't {width} fields", "isn't a table in UTF-8", "is empty")


def bytes_of(path: str, most: int = MOST_BYTES) -> bytes:
    """Returns what stands in a file, or raises Unread where it is none, longer than so many bytes, or may not be read."""
    try:
        size = _want_file(path, most)
        with open(path, "rb") as it:
            # Room for all that is read is taken before, so no more is asked for than stands there.
            data = it.read(size + 1)
            return data if len(data) <= size else data + it.read(most - size)
    except (OSError, ValueError) as error:
        raise _unread(path, error) from error


def parts_of(path: str, most: int) -> Iterator[bytes]:
    """Yields the bytes of a file part by part, or raises Unread as `bytes_of` does."""
    try:
        _want_file(path, most)
        with open(path, "rb") as it:
            yield from iter(lambda: it.read(PART), b"")
    except (OSError, ValueError) as error:
        raise _unread(path, error) from error


def _want_file(path: str, most: int) -> int:
    """Returns how long the file in a place is, or raises Unread where none stands there, or one longer than so many bytes."""
    found = os.stat(path)
    if not stat.S_ISREG(found.st_mode):
        raise Unread.of(path, "is no file", FAULT)
    if found.st_size > most:
        raise Unread.of(path, f"is longer than {most} bytes")
    return found.st_size


def _unread(path: str, error: Exception) -> Unread:
    return Unread.of(path, f"can't be read: {getattr(error, 'strerror', None) or error}", FAULT)


def records_in(data: bytes) -> Iterator[Record]:
    """Yields the records of a file's bytes, blank lines passed over. Each byte is one letter to Python's csv."""
    data = data[len(MARK) :] if data.startswith(MARK) else data
    csv.field_size_limit(MOST_BYTES + 1)
    rows = csv.reader(io.StringIO(data.decode("latin-1"), newline=""))
    number, line = 0, 1
    for row in rows:
        if row:
            number += 1
            yield Record([it.encode("latin-1") for it in row], number, line, rows.line_num)
        line = rows.line_num + 1


def records_of(path: str) -> Iterator[Record]:
    """Yields the records of a file, the header first, or raises Unread."""
    return records_in(bytes_of(path))


def record_of(path: str, number: int) -> Optional[Record]:
    """Returns a record of a file by its number, or None where there are fewer."""
    return next((it for it in records_of(path) if it.number == number), None)


def names_in(path: str) -> List[str]:
    """Returns the names in the first column of a table, in their order."""
    return [it.texts[0] for it in records_of(path) if it.number > 1]


def read_table(path: str, headers: Sequence[Header], saying: Saying = _PLAINLY) -> Tuple[Header, Rows]:
    """Returns which of its headers a table has, and the records below it as lists of texts, or raises Unread."""
    header, found = headers[0], []
    wanted = " or ".join(",".join(it) for it in headers)

    def refuse(it: Record, why: str) -> NoReturn:
        told = why.format(wanted=wanted, number=it.number, printed=printed(str(it)), width=len(header))
        raise Unread(f"{path} {told}", file=path, record=it.number)

    try:
        for it in records_of(path):
            fields = [field.decode(saying.encoding) for field in it.fields]
            if it.number == 1 and tuple(fields) not in headers:
                refuse(it, saying.header)
            header = tuple(fields) if it.number == 1 else header
            if len(fields) != len(header):
                refuse(it, saying.width)
            found.append(fields)
    except (UnicodeDecodeError, csv.Error) as error:
        raise Unread.of(path, saying.letters) from error
    if not found:
        raise Unread.of(path, saying.empty.format(wanted=wanted))
    return header, found[1:]


def table_of(folder: str, name: str, headers: Sequence[Header]) -> Tuple[Header, Rows]:
    """Returns the same of a table of a folder. A throughs.csv may be empty."""
    path = os.path.join(folder, name)
    if name == "throughs.csv" and not bytes_of(path):
        return headers[0], []
    return read_table(path, headers)


def rows_of(folder: str, name: str) -> Rows:
    """Returns the records of a table of a folder below its header as lists of texts, or raises Unread."""
    return table_of(folder, name, headers_of(name))[1]


def text_of(header: Header, records: Iterable[Iterable[object]]) -> str:
    """Returns the text of a table."""
    text = io.StringIO()
    # Python before 3.13 doesn't quote a carriage return alone.
    writers = [csv.writer(text, lineterminator="\n", quoting=it) for it in (csv.QUOTE_MINIMAL, csv.QUOTE_ALL)]
    for it in (header, *([*fields] for fields in records)):
        writers[any("\r" in str(field) for field in it)].writerow(it)
    return text.getvalue()
