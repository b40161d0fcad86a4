"""The tables of a folder: of each its columns with their forms, what stands there once, and the most records."""

from typing import NamedTuple, Tuple

from fleetplan.forms import MOST_AIRCRAFT, MOST_LEFT, MOST_TURN, TRILLION, Wrong, code, flag, free, limit, name, place, shift, time, whole

Header = Tuple[str, ...]

# The most bytes of a table or a plan.
MOST_BYTES = 4_194_304
# The most days after which a schedule repeats.
MOST_DAYS = 7
# The most records of a flight in windows.csv, and the most pairs of a flight and a fleet that may fly it, each at each of the flight's
# times.
MOST_WINDOWS, MOST_TRIPLES = 8, 20_000
# What stands in a plan.csv in the place of a fleet where the leg is left out, and as the parking of a station without a limit.
NO_FLEET = NO_LIMIT = "-"


class Column(NamedTuple):
    """A column: its heading, what says what is wrong with a field, and the table whose names its fields are."""

    heading: str
    wrong: Wrong
    of: str = ""


class Table(NamedTuple):
    """A table: its columns, the most records (0: no limit of its own), and how many of its first fields stand there once."""

    columns: Tuple[Column, ...]
    most: int = 0
    keys: int = 1

    @property
    def header(self) -> Header:
        """The headings."""
        return tuple(it.heading for it in self.columns)

    @property
    def most_read(self) -> int:
        """The most records, also where another table limits them."""
        return self.most or MOST_TRIPLES

    @property
    def forms(self) -> Tuple[Wrong, ...]:
        """Of each column what says what is wrong with a field."""
        return tuple(it.wrong for it in self.columns)

    def named(self, table: str) -> Header:
        """Returns the headings of the columns that hold names of a table."""
        return tuple(it.heading for it in self.columns if it.of == table)


def _flight(heading: str = "flight") -> Column:
    return Column(heading, name, "legs.csv")


def _station(heading: str) -> Column:
    return Column(heading, code, "stations.csv")


_COST = whole(-TRILLION, TRILLION)
_FLEET = Column("fleet", name, "fleets.csv")
STATIONS = Table((Column("code", code), Column("extra", whole(0, 600)), Column("maintenance", flag)), 200)
LEGS = Table((Column("flight", name), _station("from"), Column("dep", time), _station("to"), Column("arr", time)), 1000)
TABLE = {
    "stations.csv": STATIONS,
    "fleets.csv": Table((Column("fleet", name), Column("aircraft", whole(0, MOST_AIRCRAFT)), Column("turn", whole(0, MOST_TURN))), 20),
    "legs.csv": LEGS,
    "costs.csv": Table((_flight(), _FLEET, Column("cost", _COST)), keys=2),
    "throughs.csv": Table((_flight("in"), _flight("out"), Column("value", whole(0, TRILLION))), 2000, keys=2),
    "windows.csv": Table((_flight(), Column("shift", shift), Column("extra", _COST)), 8000, keys=2),
    "optional.csv": Table((_flight(), Column("skip", _COST)), 1000),
    "plan.csv": Table((_flight(), Column("fleet", free))),
    "tails.csv": Table((Column("tail", name), _FLEET, Column("left", whole(1, MOST_LEFT))), 10_000),
    "rotation.csv": Table(tuple(Column(it, free) for it in ("fleet", "round", "kind", "a", "b"))),
}
HEADERS = {name: table.header for name, table in TABLE.items()}
# The five that each schedule has, and those that are read behind them where an option says so, in the order of reading.
TABLES = tuple(HEADERS)[:5]
ASKED = {"windows": "windows.csv", "optional": "optional.csv"}
# What `solve` writes.
WRITTEN = ("plan.csv", "proof.txt", "rotation.csv")
# The column that tells the day of each flight, and the header with it. Without it a legs.csv is read too where the period is one day.
DAY = "day"
DATED = (HEADERS["legs.csv"][0], DAY, *HEADERS["legs.csv"][1:])
# The header of a stations.csv that tells how many aircraft may stay at a station for a night.
LIMITED = (*HEADERS["stations.csv"], "parking")
# The header of a tails.csv that tells where each aircraft is, and that column: a station, a flight, or nothing.
LOCATED = (*HEADERS["tails.csv"], "at")
AT = LOCATED[-1]
# The header of a plan.csv where legs may depart at several times.
SHIFTED = (*HEADERS["plan.csv"], "shift")
# The tables that may have a column more at their end.
WIDER = {"stations.csv": LIMITED, "tails.csv": LOCATED}


def named_by(text: str) -> str:
    """Returns the table that has what a place names: stations where it is of their form, else flights, and none where it is empty."""
    return "" if not text else "legs.csv" if code(text) else "stations.csv"


def headers_of(table: str, period: int = 1) -> Tuple[Header, ...]:
    """Returns the headers that a table may have where the schedule repeats after so many days."""
    if table in WIDER:
        return HEADERS[table], WIDER[table]
    if table != "legs.csv":
        return (HEADERS[table],)
    return (HEADERS[table], DATED) if period == 1 else (DATED,)


def forms_of(table: str, header: Header, period: int = 1) -> Tuple[Wrong, ...]:
    """Returns of each field of a table with this header what says what is wrong with it, where the schedule repeats after so many
    days."""
    first, *rest = TABLE[table].forms
    if header == LIMITED:
        return (first, *rest, limit)
    if header == LOCATED:
        return (first, *rest, place)
    return (first, whole(1, period), *rest) if header == DATED else (first, *rest)
