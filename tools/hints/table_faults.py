"""What is wrong with a record of a table, by the kinds of faults that the program tells."""

import difflib
import os
from collections import Counter
from typing import Callable, Dict, FrozenSet, Iterable, Iterator, List, NamedTuple, Optional, Sequence, Tuple

from fleetplan.forms import whole
from fleetplan.records import Record, names_in, records_of
from fleetplan.tables import AT, DAY, HEADERS, LIMITED, MOST_DAYS, MOST_TRIPLES, MOST_WINDOWS, TABLE, forms_of, headers_of, named_by
from fleetplan.texts import counted, listed, plain

# The kinds of faults that a record of any table may have, and those of a leg.
OF_RECORDS = (2, 3, 4, 5, 6, 7, 8)
OF_LEGS = (*OF_RECORDS, 9, 10)
# Of each kind that looks a name up, where.
LOOKUPS = {6: "stations.csv", 7: "legs.csv", 8: "fleets.csv"}
Key = Tuple[object, ...]


class Told(NamedTuple):
    """What is told of a fault of a record: a sentence, the column, what was found there and what is wanted, and further sentences."""

    text: str
    column: Optional[str] = None
    found: Optional[str] = None
    wanted: Optional[str] = None
    more: Tuple[str, ...] = ()


class Looked:
    """A table of a folder: its records, its header, and what its fields have to be, where the schedule repeats after so many days."""

    def __init__(self, folder: str, name: str, period: int) -> None:
        self.folder, self.name = folder, name
        self.path = os.path.join(folder, name)
        self.records = list(records_of(self.path))
        first = tuple(self.records[0].texts) if self.records else ()
        self.header = next((it for it in headers_of(name, period) if it == first), HEADERS[name])
        self.fields = forms_of(name, self.header, period)
        # Whether only the number of faults is asked for, and no text of them.
        self.only_counts = False
        self._names: Dict[str, List[str]] = {}
        self._known: Dict[str, FrozenSet[str]] = {}
        self._firsts: Dict[Key, Record] = {}

    def record(self, number: int) -> Optional[Record]:
        """Returns a record by its number, or None where there are fewer."""
        return self.records[number - 1] if 0 < number <= len(self.records) else None

    def of(self, record: Record, column: str) -> str:
        """Returns a field of a record by its column."""
        return record.texts[self.header.index(column)]

    def names(self, table: str) -> List[str]:
        """Returns the names of a table of the folder."""
        if table not in self._names:
            self._names[table] = names_in(os.path.join(self.folder, table))
        return self._names[table]

    def has(self, table: str, name: str) -> bool:
        """Returns whether a table of the folder has a name."""
        if table not in self._known:
            self._known[table] = frozenset(self.names(table))
        return name in self._known[table]

    def first_like(self, record: Record) -> Record:
        """Returns the first record with what may stand once in the table."""
        if not self._firsts:
            for it in reversed(self.records[1:]):
                self._firsts[self._key(it)] = it
        return self._firsts[self._key(record)]

    def _key(self, record: Record) -> Key:
        """Returns what may stand once in the table. Minutes of a shift are one number, however they are written."""
        flight, *others = record.texts[: TABLE[self.name].keys]
        is_number = self.name == "windows.csv" and len(others) == 1 and not whole(-(10**20), 10**20)(others[0])
        return (flight, *map(int, others)) if is_number else (flight, *others)

    def faults(self, record: Record, kinds: Iterable[int]) -> Optional[Tuple[int, List[Told]]]:
        """Returns the first of some kinds of faults that a record shows, and what is wrong with it, or None."""
        for kind in kinds:
            told = TELLERS[kind](self, record)
            if told:
                return kind, told
        return None

    def later_faults(self, number: int) -> Iterator[Tuple[Record, int, Told]]:
        """Yields the records behind one that are wrong in themselves, each with the first kind and the first fault that it shows."""
        for record in self.records[number:]:
            found = self.faults(record, OF_LEGS if self.name == "legs.csv" else OF_RECORDS)
            if found:
                yield record, found[0], found[1][0]


# Of a table and a record what is wrong with that, or nothing where the file doesn't show it (any more).
Teller = Callable[[Looked, Record], List[Told]]


def place(record: Record) -> str:
    """Returns where a record stands in its file."""
    if record.line != record.last:
        return f"lines {record.line} to {record.last}"
    return f"line {record.line}" + (f" (record {record.number})" if record.number != record.line else "")


def tell_width(table: Looked, record: Record) -> List[Told]:
    """Returns what is said of too many or too few fields, or nothing where the record doesn't show that (any more)."""
    wanted, has = len(table.header), len(record.fields)
    if has == wanted:
        return []
    header, more = ",".join(table.header), []
    if record.last > record.line:
        more.append(f"a quote is opened in line {record.line}, and the record goes on to line {record.last}: is a quote missing?")
    elif has == 1 and not record.fields[0].strip():
        more.append("the line holds blanks alone: take it away, or leave it wholly empty")
    elif has == 1 and any(it in record.fields[0] for it in (b";", b"\t")):
        more.append("its fields are apart by semicolons or tabs, and commas are wanted")
    elif has > wanted and not any(record.fields[wanted:]):
        more.append("there are commas at its end: take them away")
    text = f"it has {counted(has, 'field')}, and {wanted} are wanted: {header}"
    return [Told(text, None, plain(str(record)), header, tuple(more))]


def tell_text(table: Looked, record: Record) -> List[Told]:
    """Returns the same of a field that isn't UTF-8."""
    for heading, field in zip(table.header, record.fields):
        try:
            field.decode("utf-8")
        except UnicodeDecodeError as error:
            told = f"{heading} has the byte {field[error.start]:02X}, which isn't UTF-8"
            text = f"{told}: write it anew in plain letters, and save the file as UTF-8"
            return [Told(text, heading, plain(field.decode("utf-8", "backslashreplace")), "UTF-8")]
    return []


def tell_form(table: Looked, record: Record) -> List[Told]:
    """Returns the same of fields that haven't their form."""
    told = []
    for heading, text, wrong in zip(table.header, record.texts, table.fields):
        why = wrong(text)
        if why and heading == DAY and not whole(1, MOST_DAYS)(text):
            why = f"{why} (--period says after how many days the schedule repeats)"
        if why:
            shown = plain(text) if text == text.strip() else f"'{plain(text)}'"
            empty = f"{heading} is empty{': write - for any number' if heading == LIMITED[-1] else ''}"
            told.append(Told(f"{heading} is {shown}, and {why}" if text else empty, heading, plain(text), why))
    return told


def tell_twice(table: Looked, record: Record) -> List[Told]:
    """Returns the same of a record whose key stands in an earlier one."""
    count, first = TABLE[table.name].keys, table.first_like(record)
    if first.number >= record.number:
        return []
    named, stand = listed(record.texts[:count]), "stands" if count == 1 else "stand"
    text = f"{named} {stand} in {place(first)} too: take one of the two away"
    return [Told(text, ",".join(table.header[:count]), ",".join(record.texts[:count]), "each once", (f"there it is {plain(str(first))}",))]


def teller_of_names(kind: int) -> Teller:
    """Returns what tells which name of a record another table doesn't have."""
    lookup = LOOKUPS[kind]

    def tell(table: Looked, record: Record) -> List[Told]:
        told: Dict[str, Told] = {}
        is_at = AT in table.header and named_by(table.of(record, AT)) == lookup
        for column in (*TABLE[table.name].named(lookup), *([AT] if is_at else [])):
            text = table.of(record, column)
            if not table.has(lookup, text) and text not in told:
                said = "" if table.only_counts else unknown(text, lookup, table.names(lookup))
                if column == AT and lookup == LOOKUPS[6] and table.has(LOOKUPS[7], text):
                    said = f"{said}; three letters are a station, also where a flight is called so"
                told[text] = Told(said, column, text, f"a name of {lookup}")
        return list(told.values())

    return tell


def unknown(text: str, table: str, has: Sequence[str]) -> str:
    """Says that a table doesn't have a name, and which ones it has that are like it."""
    near = difflib.get_close_matches(text, has, 3, 0.6)
    if near:
        return f"{text} isn't in {table}: the nearest there {'is' if len(near) == 1 else 'are'} {listed(near)}"
    return f"{text} isn't in {table}, which has {listed(has)}" if has else f"{text} isn't in {table}, which has no record"


def tell_block(table: Looked, record: Record) -> List[Told]:
    """Returns the same of a flight that arrives in the minute in which it departs."""
    flight, dep, arr = (table.of(record, it) for it in ("flight", "dep", "arr"))
    text = f"{flight} departs and arrives at {dep}: a flight takes 1 to 1439 minutes"
    return [Told(text, "arr", arr, f"another time than {dep}")] if dep == arr else []


def tell_station(table: Looked, record: Record) -> List[Told]:
    """Returns the same of a flight that arrives where it departs."""
    flight, start, end = (table.of(record, it) for it in ("flight", "from", "to"))
    text = f"{flight} departs from {start} and arrives there: write another station"
    return [Told(text, "to", end, f"another station than {start}")] if start == end else []


def tell_many(table: Looked, record: Record) -> List[Told]:
    """Returns the same of more records than there may be."""
    number, most = len(table.records) - 1, TABLE[table.name].most
    text = f"the file has {number:,} records below its header, and may have {most:,}"
    return [Told(text, None, str(number), f"{most} records at most")] if most and number > most else []


def tell_windows(table: Looked, record: Record) -> List[Told]:
    """Returns the same of a flight with more times than it may have."""
    flight = table.of(record, "flight")
    number = table.names(table.name).count(flight)
    text = f"{flight} has {number} records here, and may have {MOST_WINDOWS}"
    return [Told(text, "flight", flight, f"{MOST_WINDOWS} records of a flight at most")] if number > MOST_WINDOWS else []


def tell_triples(table: Looked, record: Record) -> List[Told]:
    """Returns the same of more flights with a fleet at a time than there may be."""
    fleets, windows = Counter(table.names("costs.csv")), Counter(table.names(table.name))
    number = sum(count * (1 + windows[flight]) for flight, count in fleets.items())
    if number <= MOST_TRIPLES:
        return []
    text = f"flights with a fleet that may fly them, each at each of its times, come to {number:,}, and may come to {MOST_TRIPLES:,}"
    more = "take records away here, most where many fleets may fly the flight, or from costs.csv"
    return [Told(text, None, str(number), f"{MOST_TRIPLES} at most", (more,))]


TELLERS: Dict[int, Teller] = {
    2: tell_width,
    3: tell_text,
    4: tell_form,
    5: tell_twice,
    6: teller_of_names(6),
    7: teller_of_names(7),
    8: teller_of_names(8),
    9: tell_block,
    10: tell_station,
    11: tell_many,
    13: tell_windows,
    14: tell_triples,
}
