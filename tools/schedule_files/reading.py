"""A whole schedule file, each of its lines judged."""

from sys import intern
from typing import Dict, Iterator, List, NamedTuple, Sequence, Tuple

from fleetplan.errors import Unread
from fleetplan.texts import printed
from fleetplan.times import DAY
from schedule_files import layout
from schedule_files.days import DATE_VARIATIONS, OPEN, TIMES, VARIATIONS, day_of, iso, weekday_of
from schedule_files.layout import LENGTH, ZEROS, BadLine, Field, Layout

MOST_RECORDS = 999_999
# Which record types may stand behind one; 0 are lines of zeros behind the legs, C and E a trailer's end code.
FOLLOWS = {"": "1", "1": "2", "2": "35", "3": "345", "4": "345", "0": "5", "C": "2", "E": ""}
WORDS = {
    "": "no record: the one before is the last trailer's",
    "1": "1, the header",
    "2": "2, a carrier",
    "35": "3, a leg, or 5, the trailer",
    "5": "5, the trailer, behind lines of zeros",
    "345": "3, a leg, 4, data of a segment, or 5, the trailer",
}
# The segment data of a leg that is flown under another number.
OPERATIONAL_LEG = "050"


# What may stand behind the last record: ends of lines, and Ctrl-Z. How letters beyond ASCII are kept.
BEHIND, CTRL_Z = "\r\n\x1a", "\x1a"
CODING = "surrogateescape"


class Warned(NamedTuple):
    """What isn't as it should be in a line, and isn't used: the line's number, and what is told."""

    number: int
    what: str


class Carrier:
    """A carrier's part of a file: its time mode, its validity as days, and its legs."""

    def __init__(self, number: int, line: str) -> None:
        self.number, self.is_local, self.airline = number, line[1] == "L", line[2:5]
        self.start, self.end = day_of(line[14:21]) or OPEN, day_of(line[21:28]) or OPEN
        self.legs: List[Leg] = []

    def is_valid(self, day: int) -> bool:
        """Returns whether a day lies within the validity."""
        return self.start <= day <= self.end

    def __str__(self) -> str:
        return f"from {iso(self.start)} on" if self.end == OPEN else f"from {iso(self.start)} to {iso(self.end)}"


class Leg:
    """A leg as its record has it. Its departure and arrival are minutes in UTC, counted from the midnight (in UTC) that begins a date
    of operation. `number` is that of its line, and `last` that of the last line of its segment data."""

    __slots__ = (
        "carrier", "number", "last", "suffix", "airline", "flight", "variation", "sequence", "service", "start", "end", "days", "rate",
        "origin", "destination", "departure", "arrival", "type", "disclosure", "is_duplicate",
    )  # fmt: skip
    carrier: Carrier
    number: int
    last: int
    suffix: str
    airline: str
    flight: int
    variation: str
    sequence: int
    service: str
    start: int
    end: int
    days: str
    rate: str
    origin: str
    destination: str
    departure: int
    arrival: int
    type: str
    disclosure: str
    is_duplicate: bool

    def operates(self, day: int) -> bool:
        """Returns whether a day is a date of operation. The weeks of a rate of 2 are counted from the first day of the period."""
        if not self.start <= day <= self.end or self.days[weekday_of(day) - 1] == " ":
            return False
        return self.rate != "2" or (day - self.start) // 7 % 2 == 0

    @property
    def name(self) -> Tuple[str, int, str]:
        """The flight without a suffix or a variation."""
        return self.airline, self.flight, self.suffix

    def __str__(self) -> str:
        suffix = "" if self.suffix == " " else self.suffix
        return f"{self.airline.strip()} {self.flight}{suffix}, variation {self.variation}, leg {self.sequence}"


class Schedule:
    """A schedule file: its path, its lines without their ends, how they end, what stands behind the last one, its carriers, and warnings of
    what isn't as it should be and isn't used. A byte that isn't ASCII is a letter as Python's "surrogateescape" has it, but in a line of 200
    letters in UTF-8."""

    def __init__(self, path: str, data: bytes) -> None:
        self.path = path
        text = data.decode("ascii", CODING)
        whole = text.rstrip(BEHIND) or text
        self.tail = text[len(whole) :]
        lines = whole.split("\n")
        self.end = "\n"
        if len(lines) > 1 and not self.tail.startswith("\n") and all(it.endswith("\r") for it in lines[:-1]):
            self.end = "\r\n"
            lines = [*(it[:-1] for it in lines[:-1]), lines[-1]]
        # Of a season each of these is 200 MB.
        del text, whole
        self.lines = [it if len(it) == LENGTH else in_letters(it) for it in lines]
        reader = Reader(path, self.lines)
        self.carriers = reader.read()
        self.legs = [it for carrier in self.carriers for it in carrier.legs]
        self.warnings = sorted([*reader.warnings, *of_letters(self.lines), *of_tail(self.tail, self.end, len(lines))])

    def encoded(self, lines: Sequence[str]) -> bytes:
        """Returns the bytes of lines that stand in the place of its own."""
        return (self.end.join(lines) + self.tail).encode("utf-8", CODING)


def in_letters(line: str) -> str:
    """Returns a line that has 200 letters in UTF-8 as these, and any other as it is."""
    try:
        letters = line.encode("ascii", CODING).decode("utf-8")
    except UnicodeDecodeError:
        return line
    return letters if len(letters) == LENGTH else line


def of_letters(lines: Sequence[str]) -> Iterator[Warned]:
    """Yields the lines with letters beyond ASCII. Those of fields that are judged are refused before."""
    for number, line in enumerate(lines, 1):
        if not line.isascii():
            at = next(at for at, it in enumerate(line, 1) if not it.isascii())
            yield Warned(number, f"byte {at} isn't ASCII")


def of_tail(tail: str, end: str, number: int) -> Iterator[Warned]:
    """Yields what stands behind the last line, whose number is given: empty lines and Ctrl-Z."""
    behind = tail[len(end) :] if tail.startswith(end) else tail
    at = number + tail.startswith(end)
    *empty, last = behind.split("\n")
    for more, it in enumerate([*empty, *([last] if last.strip("\r") else [])]):
        yield Warned(at + more, "Ctrl-Z stands behind the trailer" if CTRL_Z in it else "an empty line stands behind the trailer")


class Reader:
    """Reads the lines of a file one after another. `serial` is that of the last record, and `known` has the line of each leg."""

    def __init__(self, path: str, lines: Sequence[str]) -> None:
        self.path, self.lines = path, lines
        self.serial, self.state, self.leg = 0, "", Leg()
        self.carriers: List[Carrier] = []
        self.known: Dict[Tuple[object, ...], int] = {}
        self.warnings: List[Warned] = []
        self.takes = {"1": self.header, "2": self.carrier, "3": self.leg_record, "4": self.segment, "5": self.trailer}

    def read(self) -> List[Carrier]:
        """Returns the carriers of the file, or raises its first fault."""
        for number, line in enumerate(self.lines, 1):
            if len(line) != LENGTH:
                raise BadLine(self.path, number, f"the line has {len(line)} bytes", f"bytes 1 to {len(line)}", f"{LENGTH} bytes long")
            if line == ZEROS and self.state:
                self.state = "0" if self.state in "34" else self.state
                continue
            kind = line[0]
            if kind not in FOLLOWS[self.state]:
                what = f'record type is "{printed(kind)}"'
                raise BadLine(self.path, number, what, "byte 1", WORDS[FOLLOWS[self.state]])
            self.state = kind
            self.takes[kind](number, line)
        if self.state != "E":
            at = len(self.lines) + 1
            raise BadLine(self.path, at, "the file ends", f"bytes 1 to {LENGTH}", WORDS[FOLLOWS[self.state]])
        return self.carriers

    def count(self, number: int, line: str, may_begin_anew: bool = False) -> None:
        """Judges the serial number of a record, the one after the last, and counts it."""
        serial = int(line[194:])
        self.serial += 1
        if serial == 2 and may_begin_anew:
            self.serial = 2
        if serial != self.serial or serial > MOST_RECORDS:
            raise layout.SERIAL.fault(self.path, number, line, f"{self.serial:06}" if self.serial <= MOST_RECORDS else "999999 at most")

    def day(self, field: Field, number: int, line: str) -> int:
        """Returns the day that a field writes."""
        found = day_of(field.of(line))
        if found is None:
            raise field.fault(self.path, number, line, "a day of the calendar")
        return found

    def period(self, fields: Layout, names: Tuple[str, str], number: int, line: str) -> None:
        """Judges a first and a last date."""
        first, last = (fields[it] for it in names)
        if self.day(first, number, line) > self.day(last, number, line):
            raise last.fault(self.path, number, line, f"{first.of(line)} or later")

    def header(self, number: int, line: str) -> None:
        """Takes the header."""
        layout.HEADER.judge(self.path, number, line)
        self.count(number, line)

    def carrier(self, number: int, line: str) -> None:
        """Takes a carrier record."""
        layout.CARRIER.judge(self.path, number, line)
        self.period(layout.CARRIER, ("first date of validity", "last date of validity"), number, line)
        self.created(layout.CARRIER["creation date"], number, line)
        self.count(number, line, bool(self.carriers))
        self.carriers.append(Carrier(number, line))
        self.known = {}

    def created(self, field: Field, number: int, line: str) -> None:
        """Judges a date that may be blank."""
        if field.of(line).strip():
            self.day(field, number, line)

    def leg_record(self, number: int, line: str) -> None:
        """Takes a leg's record."""
        if layout.LEG.form.fullmatch(line) is None:
            layout.LEG.judge(self.path, number, line)
        carrier = self.carriers[-1]
        self.airline(number, line)
        leg = Leg()
        # Of a season's texts each is kept once.
        leg.carrier, leg.number, leg.last = carrier, number, number
        leg.suffix, leg.airline, leg.flight = line[1], intern(line[2:5]), int(line[5:9])
        leg.variation, leg.sequence, leg.service = intern((line[127] + line[9:11].replace(" ", "0")).strip()), int(line[11:13]), line[13]
        start, end, leg.days, leg.rate = day_of(line[14:21]), day_of(line[21:28]), intern(line[28:35]), line[35]
        if start is None or end is None or start > end:
            self.period(layout.LEG, ("first date of the period", "last date of the period"), number, line)
        else:
            leg.start, leg.end = start, end
        leg.origin, leg.destination, leg.type = intern(line[36:39]), intern(line[54:57]), intern(line[72:75])
        leg.disclosure, leg.is_duplicate = line[148], False
        leg.departure = DATE_VARIATIONS[line[192]] * DAY + TIMES[line[43:47]]
        leg.arrival = DATE_VARIATIONS[line[193]] * DAY + TIMES[line[57:61]]
        if carrier.is_local:
            leg.departure -= VARIATIONS[line[47:52]]
            leg.arrival -= VARIATIONS[line[65:70]]
        self.flown(leg, number, line)
        key = intern(line[1:5]), leg.flight, leg.variation, leg.sequence
        if self.known.setdefault(key, number) != number:
            raise BadLine(self.path, number, f"{leg} stands twice", "bytes 2 to 13 and 128", f"another than in line {self.known[key]}")
        self.count(number, line)
        carrier.legs.append(leg)
        self.leg = leg

    def flown(self, leg: Leg, number: int, line: str) -> None:
        """Judges a leg's way and its time."""
        if leg.origin == leg.destination:
            raise layout.LEG["arrival station"].fault(self.path, number, line, "another than the departure station")
        block = leg.arrival - leg.departure
        if not 0 < block < DAY:
            what = f"the leg takes {block} minutes from departure to arrival"
            raise BadLine(self.path, number, what, "bytes 44 to 52, 58 to 70 and 193 to 194", f"1 to {DAY - 1} minutes")

    def airline(self, number: int, line: str) -> None:
        """Judges the airline of a record: that of its carrier record."""
        carrier = self.carriers[-1]
        if line[2:5] != carrier.airline:
            raise layout.AN_AIRLINE.fault(self.path, number, line, f"{carrier.airline.strip()} as in line {carrier.number}")

    def segment(self, number: int, line: str) -> None:
        """Takes a record of segment data."""
        if layout.SEGMENT.form.fullmatch(line) is None:
            layout.SEGMENT.judge(self.path, number, line)
        of = self.lines[self.leg.number - 1]
        if line[1:14] != of[1:14] and line[1:14].replace(" ", "0") != of[1:14].replace(" ", "0"):
            what = f'the flight and its leg are "{printed(line[1:14])}"'
            raise BadLine(self.path, number, what, "bytes 2 to 14", f'"{of[1:14]}" as in line {self.leg.number}')
        if line[27] != of[127]:
            field = layout.SEGMENT["itinerary variation overflow"]
            raise field.fault(self.path, number, line, f'"{of[127]}" as in line {self.leg.number}')
        for point in layout.POINTS:
            if not point.form.fullmatch(point.of(line)):
                self.warnings.append(Warned(number, f'{point.name} is "{printed(point.of(line))}" ({point.where}), it should be {point.should}'))
        self.count(number, line)
        self.leg.last = number
        self.leg.is_duplicate |= line[30:33] == OPERATIONAL_LEG

    def trailer(self, number: int, line: str) -> None:
        """Takes a trailer."""
        layout.TRAILER.judge(self.path, number, line)
        self.airline(number, line)
        self.created(layout.TRAILER["release date"], number, line)
        if int(line[187:193]) != self.serial:
            field = layout.TRAILER["serial number check"]
            raise field.fault(self.path, number, line, f"{self.serial:06}, the last serial number before it")
        self.count(number, line)
        self.state = line[193]


def read_schedule(path: str, data: bytes) -> Schedule:
    """Returns the schedule that the bytes of a file hold, or raises its first fault."""
    if not data:
        raise Unread(f"{path} line 1: the file is empty (bytes 1 to {LENGTH}), it should be {WORDS['1']}")
    return Schedule(path, data)
