"""What is wrong with the first record of a table."""

import re
from typing import List, Optional, Sequence

from fleetplan.records import MARK, bytes_of, records_in
from fleetplan.tables import HEADERS, Header, forms_of, headers_of
from fleetplan.texts import plain

# How a file begins that is no table.
KINDS = (
    (b"PK\x03\x04", "it is a spreadsheet or another packed file, and no text: save it as CSV (UTF-8, comma delimited)"),
    (b"\xd0\xcf\x11\xe0", "it is a spreadsheet, and no text: save it as CSV (UTF-8, comma delimited)"),
    (b"\xff\xfe", "it is in UTF-16: save it as CSV in UTF-8"),
    (b"\xfe\xff", "it is in UTF-16: save it as CSV in UTF-8"),
    (MARK + MARK, "two byte order marks stand at its beginning: save it without one"),
)
# What stands between fields in the place of commas.
OTHERS = ((";", "semicolons"), ("\t", "tabs"), ("|", "bars"))


def explain_header(path: str, name: str, period: int) -> List[str]:
    """Returns what is wrong with the header of a table, in sentences, where the schedule repeats after so many days."""
    data = bytes_of(path)
    wanted = meant(data, headers_of(name, period))
    with_period = f" with --period {period}" if name == "legs.csv" and period > 1 else ""
    begins = f"its first line has to be {','.join(wanted)}{with_period}"
    if not data:
        return [f"{path} is empty", begins]
    for start, told in KINDS:
        if data.startswith(start):
            return [f"{path}: {told}", begins]
    first = next(records_in(data), None)
    if first is None:
        return [f"{path} has blank lines alone", begins]
    has = tuple(first.texts)
    if has in headers_of(name, period):
        return []
    why = difference(has, wanted, name)
    return [f"{path} begins with {plain(str(first))}", *([why] if why else []), begins]


def meant(data: bytes, headers: Sequence[Header]) -> Header:
    """Returns the header that a file is meant to have: the longest one whose words stand in its first line, or else the first."""
    words = set(re.findall("[a-z]+", data[:200].decode("latin-1").lower().split("\n")[0]))
    return max((it for it in headers if words.issuperset(it)), key=len, default=headers[0])


def difference(has: Header, wanted: Header, name: str) -> Optional[str]:
    """Says in what a header differs from the one that is wanted, where that is plain."""
    trimmed = tuple(it.strip().strip("\ufeff") for it in has)
    if any("\ufeff" in it for it in has):
        return "a byte order mark stands in the midst of it, which can't be seen: type the line anew"
    for letter, told in OTHERS:
        if len(has) == 1 and tuple(it.strip().lower() for it in has[0].split(letter)) == wanted:
            return f"there are {told} where commas are wanted, most likely in each line: save it as CSV with commas"
    if has[: len(wanted)] == wanted and not any(has[len(wanted) :]):
        return "there are commas at its end, most likely in each line: a column is empty there, so take it away"
    if has[: len(wanted)] == wanted:
        return f"there are more columns than {len(wanted)}: take away {plain(','.join(has[len(wanted):]))}, in each line"
    if trimmed == wanted:
        return "there are blanks beside its commas: nothing may stand there, in no line"
    if tuple(it.lower() for it in trimmed) == wanted:
        return "it has capital letters, and small ones are wanted"
    if sorted(it.lower() for it in trimmed) == sorted(wanted):
        return "its columns stand in another order: bring them into this one, in each line"
    if has[0].lower().startswith("sep="):
        return "take this line away: the header comes first"
    if with_day(has, wanted):
        return "it tells no day of its flights"
    others = [it for it, header in HEADERS.items() if header == has and it != name]
    if others:
        return f"that is the header of {others[0]}"
    if len(has) == len(wanted) and not any(wrong(text) for wrong, text in zip(forms_of(name, wanted), has)):
        return "that is a good record: write the header above it"
    return None


def with_day(has: Header, wanted: Header) -> bool:
    """Returns whether a header is the one that is wanted but for the day."""
    return "day" in wanted and has == tuple(it for it in wanted if it != "day")
