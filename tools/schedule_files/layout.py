"""The lines of a schedule file: which bytes are what, and which form they have."""

import re
from typing import Optional

from fleetplan.errors import Unread
from fleetplan.texts import printed

LENGTH = 200
TITLE = "AIRLINE STANDARD SCHEDULE DATA SET"
ZEROS = "0" * LENGTH
MONTHS = ("JAN", "FEB", "MAR", "APR", "MAY", "JUN", "JUL", "AUG", "SEP", "OCT", "NOV", "DEC")
OPEN_END = "00XXX00"

DATE = rf"(?:0[1-9]|[12][0-9]|3[01])(?:{'|'.join(MONTHS)})[0-9]{{2}}"
TIME = r"(?:[01][0-9]|2[0-3])[0-5][0-9]|2400"
AIRLINE = r"[A-Z0-9]{2}[A-Z0-9 ]"
NUMBER = r"[0-9]{4}| [0-9]{3}|  [0-9]{2}|   [0-9]"


class BadLine(Unread):
    """A line that isn't as it should be."""

    def __init__(self, path: str, line: int, what: str, where: str, should: str) -> None:
        super().__init__(f"{path} line {line}: {what} ({where}), it should be {should}", file=path, record=line)


class Field:
    """Bytes of a line, counted from 1, with a name, a form, and that form in words."""

    def __init__(self, name: str, first: int, last: int, form: str, should: str) -> None:
        self.name, self.first, self.last, self.form, self.should = name, first, last, re.compile(form), should
        self.where = f"byte {first}" if first == last else f"bytes {first} to {last}"

    def of(self, line: str) -> str:
        """Returns the bytes of a line."""
        return line[self.first - 1 : self.last]

    def put(self, line: str, text: str) -> str:
        """Returns a line with another text there."""
        return f"{line[: self.first - 1]}{text}{line[self.last :]}"

    def fault(self, path: str, number: int, line: str, should: Optional[str] = None) -> BadLine:
        """Returns the fault of a line whose field isn't as it should be."""
        return BadLine(path, number, f'{self.name} is "{printed(self.of(line))}"', self.where, should or self.should)


class Layout:
    """The fields of a record type, in their order. One form of the whole line decides; the fields say what is wrong."""

    def __init__(self, *fields: Field) -> None:
        self.fields = {it.name: it for it in fields}
        form, at = "", 1
        for it in fields:
            form += f".{{{it.first - at}}}(?:{it.form.pattern})"
            at = it.last + 1
        self.form = re.compile(form, re.DOTALL)

    def judge(self, path: str, number: int, line: str) -> None:
        """Raises the first fault of a line, where it has one."""
        if self.form.fullmatch(line) is None:
            raise next(it.fault(path, number, line) for it in self.fields.values() if not it.form.fullmatch(it.of(line)))

    def __getitem__(self, name: str) -> Field:
        return self.fields[name]


# The form of a field, and that in words.
A_DATE = DATE, "a date as 05NOV26"
AN_END = f"{DATE}|{OPEN_END}", f"a date as 05NOV26, or {OPEN_END}"
A_CREATION = f"{DATE}| {{7}}", "a date as 05NOV26, or blank"
A_TIME = TIME, "0000 to 2400"
A_PASSENGERS_TIME = f"{TIME}| {{4}}", "0000 to 2400, or blank"
A_STATION = r"[A-Z]{3}", "three letters A to Z"
A_VARIATION = r"[+-](?:0[0-9]|1[0-4])[0-5][0-9]", "+ or -, and hours and minutes to 1459"
AN_OVERFLOW = "[A-Z0-9 ]", "a letter, a digit or a blank"
DAYS_OFF = "[0-7A ]", "0 to 7, A for the day before, or a blank"

AN_AIRLINE = Field("airline", 3, 5, AIRLINE, "two or three letters A to Z and digits")
SUFFIX = Field("operational suffix", 2, 2, "[A-Z ]", "a letter or a blank")
FLIGHT = Field("flight number", 6, 9, NUMBER, "one to four digits, at the right end")
ITINERARY = Field("itinerary variation", 10, 11, "[0-9]{2}| [0-9]", "two digits")
SEQUENCE = Field("leg sequence", 12, 13, "0[1-9]|[1-9][0-9]| [1-9]", "01 to 99")
SERVICE = Field("service type", 14, 14, "[A-Z]", "a letter")
SERIAL = Field("serial number", 195, 200, "[0-9]{6}", "six digits")
# What names a leg, in its record and in those of its segments.
NAMED = SUFFIX, AN_AIRLINE, FLIGHT, ITINERARY, SEQUENCE, SERVICE
EACH_DAY = "each day's digit in its place or a blank, one digit at least"

# The flight that the aircraft flies next, and how many days later than it arrives. They are judged where they are used.
ONWARD = Field(
    "onward flight", 138, 146, rf" {{9}}|(?:{AIRLINE})(?:{NUMBER})[0-9 ][A-Z ]",
    "an airline, a flight number, the days of its layover and a suffix, or blank",
)  # fmt: skip
LAYOVER = Field("layover", 145, 145, "[0-9 ]", "a digit or a blank")

HEADER = Layout(Field("title", 2, 35, TITLE, TITLE), SERIAL)
CARRIER = Layout(
    Field("time mode", 2, 2, "[UL]", "U for UTC or L for local time"),
    AN_AIRLINE,
    Field("season", 11, 13, "[SW][0-9]{2}| {3}", "S or W and two digits, or blank"),
    Field("first date of validity", 15, 21, *A_DATE),
    Field("last date of validity", 22, 28, *AN_END),
    Field("creation date", 29, 35, *A_CREATION),
    SERIAL,
)
LEG = Layout(
    *NAMED,
    Field("first date of the period", 15, 21, *A_DATE),
    Field("last date of the period", 22, 28, *AN_END),
    Field("days of operation", 29, 35, "(?! {7})[1 ][2 ][3 ][4 ][5 ][6 ][7 ]", EACH_DAY),
    Field("frequency rate", 36, 36, "[12 ]", "a blank, or 2 for every second week"),
    Field("departure station", 37, 39, *A_STATION),
    Field("passengers' time of departure", 40, 43, *A_PASSENGERS_TIME),
    Field("aircraft's time of departure", 44, 47, *A_TIME),
    Field("departure's variation from UTC", 48, 52, *A_VARIATION),
    Field("arrival station", 55, 57, *A_STATION),
    Field("aircraft's time of arrival", 58, 61, *A_TIME),
    Field("passengers' time of arrival", 62, 65, *A_PASSENGERS_TIME),
    Field("arrival's variation from UTC", 66, 70, *A_VARIATION),
    Field("aircraft type", 73, 75, "[A-Z0-9]{3}", "three letters A to Z and digits"),
    Field("itinerary variation overflow", 128, 128, *AN_OVERFLOW),
    Field("operating airline disclosure", 149, 149, "[A-Z ]", "a letter or a blank"),
    Field("departure's date variation", 193, 193, *DAYS_OFF),
    Field("arrival's date variation", 194, 194, *DAYS_OFF),
    SERIAL,
)
SEGMENT = Layout(
    *NAMED,
    Field("itinerary variation overflow", 28, 28, *AN_OVERFLOW),
    Field("data element identifier", 31, 33, "[0-9]{3}", "three digits"),
    SERIAL,
)
# The points of a segment are of no use here: one that isn't of its form is told.
POINTS = Field("board point", 34, 36, *A_STATION), Field("off point", 37, 39, *A_STATION)
TRAILER = Layout(
    AN_AIRLINE,
    Field("release date", 6, 12, *A_CREATION),
    Field("serial number check", 188, 193, "[0-9]{6}", "six digits"),
    Field("end code", 194, 194, "[CE]", "C where a carrier follows, or E"),
    SERIAL,
)
