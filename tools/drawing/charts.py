"""Rows of aircraft as shapes and words: where each stands in its row, in hundredths of the row's width and in pixels."""

from dataclasses import dataclass, field, replace
from typing import Callable, Dict, List, Optional, Sequence, Tuple

from drawing.calendars import Calendar
from drawing.flights import Departure, Ground
from drawing.letters import width_of
from drawing.plans import Row
from fleetplan.times import DAY

# Pixels: the names beside the rows, a row's width at least, a bar, what stands above it (more where it has marks), and below.
NAMES, WIDTH, BAR, ABOVE, MARKED, BELOW, TIGHT = 96, 940, 18, 6, 18, 32, 5
# Pixels a minute from which stations and times stand below the bars.
ROOMY = 0.5
# Sizes of letters: of days, and of all else but flights. Pixels between two texts.
DAY_NAME, SMALL, GAP = 11, 10, 7


@dataclass(frozen=True)
class Letters:
    """How a flight may stand in its bar: size and weight, pixels beside it, and its kind."""

    size: int
    weight: int
    beside: int
    kind: str


# The first that has room is taken.
FLIGHTS = (Letters(11, 600, 5, "flight"), Letters(9, 400, 3, "flight narrow"))
# Where words stand, in pixels below the top of a bar.
HEIGHTS = {"mark": -4.5, "over": -4.5, "flight": 13, "station": 29, "time": 41}
# Pixels of the axis above a chart of one day, and of several.
AXES = (20, 36)
# Rows of a chart that stay together on paper.
TOGETHER = {True: 11, False: 22}
STEPS = (30, 60, 120, 180, 240, 360, 720, 1440)


@dataclass(frozen=True)
class Text:
    """A text of a bar: its kind, where it stands (hundredths of the row's width, and pixels beside that), and its words."""

    kind: str
    x: float
    dx: float
    text: str

    @property
    def y(self) -> float:
        """Pixels below the bar's top."""
        return HEIGHTS[self.kind.split()[0]]


@dataclass(frozen=True)
class Shape:
    """A part of a row from a minute to another one, in hundredths of the row's width, and of a night the station, with its minutes where
    it is too short for maintenance there."""

    kind: str
    x: float
    width: float
    title: str = ""
    text: str = ""
    station: str = ""
    stay: Optional[int] = None


@dataclass
class Bar:
    """A flight in a row, or what is left of one that departed before: its own minutes in the row, whether its departure and its arrival
    are among them, and the minute of the next bar."""

    flown: Departure
    first: int
    last: int
    departs: bool
    lands: bool
    limit: int
    mark: str = ""
    key: str = ""
    number: int = -1
    kinds: str = ""
    title: str = ""
    shapes: List[Shape] = field(default_factory=list)
    texts: List[Text] = field(default_factory=list)


@dataclass
class Lane:
    """A row as it is drawn."""

    name: str
    below: str
    shapes: List[Shape]
    bars: List[Bar]


@dataclass
class Chart:
    """Rows as they are drawn, below each other."""

    title: str
    minutes: int
    lanes: List[Lane]
    ticks: List[Tuple[float, str, str]]
    day_names: List[Tuple[float, str]]
    is_roomy: bool
    above: int
    step: int

    @property
    def height(self) -> int:
        """Pixels of all rows."""
        return self.step * len(self.lanes)

    @property
    def tall(self) -> int:
        """Pixels of the axis."""
        return AXES[bool(self.day_names)]

    @property
    def chunks(self) -> List[List[Lane]]:
        """The rows in parts that stay together on paper."""
        count = TOGETHER[self.is_roomy]
        parts = -(-len(self.lanes) // count)
        each = -(-len(self.lanes) // parts) if parts else 1
        return [self.lanes[at : at + each] for at in range(0, len(self.lanes), each)]


@dataclass(frozen=True)
class Scale:
    """How many pixels a row of so many minutes has."""

    minutes: int
    pixels: int = WIDTH

    @property
    def per_minute(self) -> float:
        """Pixels of a minute."""
        return self.pixels / self.minutes

    def x(self, minute: float) -> float:
        """Returns where a minute stands, in hundredths of the row."""
        return round(100 * minute / self.minutes, 4)


# Of a flight and its row what stands in its bar and below the pointer: its kinds, its mark above, and its title.
Told = Callable[[Departure, Row], Tuple[str, str, str]]


class Drawer:
    """Draws the rows of a fleet, so many pixels wide. A stay whose nights are for maintenance lasts `least_night` minutes at least."""

    def __init__(self, calendar: Calendar, maintains: Dict[str, bool], least_night: int, told: Told, pixels: int = WIDTH) -> None:
        self.calendar, self.maintains, self.least_night, self.told, self.pixels = calendar, maintains, least_night, told, pixels

    def chart(self, title: str, rows: Sequence[Row], minutes: int, ties: Sequence[Tuple[str, str]] = ()) -> Chart:
        """Returns the chart of rows of so many minutes."""
        scale = Scale(minutes, self.pixels)
        lanes = [self.lane(row, scale, ties) for row in rows]
        is_roomy = scale.per_minute >= ROOMY
        has_marks = any(text.kind in ("mark", "over") for lane in lanes for bar in lane.bars for text in bar.texts)
        above = (MARKED if has_marks else ABOVE) if is_roomy else TIGHT
        step = above + BAR + (BELOW if is_roomy else TIGHT)
        return Chart(title, minutes, lanes, ticks(self.calendar, scale), day_names(self.calendar, scale), is_roomy, above, step)

    def lane(self, row: Row, scale: Scale, ties: Sequence[Tuple[str, str]]) -> Lane:
        """Returns a row as it is drawn."""
        bars = self.bars(row, scale)
        shapes = [it for ground in row.window.grounds for it in self.ground(ground, row, scale, ties)]
        shapes += [it for bar in bars for it in self.outline(bar, row, scale)]
        return Lane(row.name, row.below, shapes, bars)

    def bars(self, row: Row, scale: Scale) -> List[Bar]:
        """Returns the bars of a row, in their order."""
        bars = []
        for flown in row.window.flights:
            span = row.window.clip(flown.departs, flown.lands)
            turn = row.window.clip(flown.lands, flown.ready)
            first, last = span or (turn or (0, 0))[:1] * 2
            bar = Bar(flown, first, last, flown.departs >= 0, 0 < flown.lands <= row.window.minutes, row.window.minutes)
            bar.kinds, bar.mark, bar.title = self.told(flown, row)
            bar.key = self.calendar.key(flown.departs + row.start)
            bar.shapes = [shape("turn", turn, scale)] if turn else []
            bar.shapes += [shape("bar", span, scale)] if span else []
            bars.append(bar)
        for bar, behind in zip(bars, bars[1:]):
            bar.limit = behind.first
        for bar in bars:
            bar.texts = texts_of(bar, self.calendar, scale)
        return bars

    def ground(self, it: Ground, row: Row, scale: Scale, ties: Sequence[Tuple[str, str]]) -> List[Shape]:
        """Returns the time on the ground: a line, a tie of a through flight, or the night at a station."""
        span = row.window.clip(it.first, it.last)
        if span is None:
            return []
        if it.before and it.after and (it.before.leg.flight, it.after.leg.flight) in ties:
            into, out = it.before.leg.flight, it.after.leg.flight
            return [shape("tie", span, scale, f"through flight: {into} and {out} by one aircraft at {it.station}")]
        night = self.is_night(it, row)
        if not night:
            return [shape("ground", span, scale, f"on the ground at {it.station}")]
        kind, more, why = self.night_words(it)
        long = f"{it.station} {more}" if more else it.station
        text = next((text for text in (long, it.station) if fits(text, SMALL, span, scale)), "")
        drawn = shape(kind, span, scale, f"at {it.station} for the night{why}", text)
        return [replace(drawn, station=it.station, stay=it.stay if kind == "night short" else None)]

    def is_night(self, it: Ground, row: Row) -> bool:
        """Returns whether a day start passes: also that with which the row begins, where the flight before is out of sight."""
        return it.nights > 0 or (it.before is None and it.first == 0 and row.window.clip(0, 1) is not None)

    def night_words(self, it: Ground) -> Tuple[str, str, str]:
        """Returns the kind of a night, what may stand behind its station, and what is said of it below the pointer."""
        if not self.maintains[it.station]:
            return "night", "", ""
        if it.is_short(self.least_night):
            return "night short", f"{it.stay} min", f", too short to be maintained: {it.stay} minutes"
        return "maintained", "maint.", ", where it can be maintained"

    def outline(self, bar: Bar, row: Row, scale: Scale) -> List[Shape]:
        """Returns the outline of a moved flight at its own time."""
        shift = bar.flown.leg.shift
        span = row.window.clip(bar.flown.departs - shift, bar.flown.lands - shift) if shift else None
        return [shape("own", span, scale, f"{bar.flown.leg.flight} at its own time")] if span else []


def ticks(calendar: Calendar, scale: Scale) -> List[Tuple[float, str, str]]:
    """Returns the lines of the clock: where they stand, their kind, and what stands above them."""
    wanted = next((it for it in STEPS if it * scale.per_minute >= 52), STEPS[-1])
    finest = next((it for it in STEPS if it * scale.per_minute >= 18), STEPS[-1])
    found = []
    for minute in range(0, scale.minutes + 1):
        clock = minute + calendar.day_start
        if clock % finest and minute % DAY:
            continue
        has_text = clock % wanted == 0 and wanted < DAY
        if minute % DAY == 0:
            kind = "start"
        elif clock % DAY == 0 and scale.minutes > DAY:
            kind = "midnight"
        else:
            kind = "hour" if clock % wanted == 0 else "fine"
        found.append((scale.x(minute), kind, calendar.clock(minute) if has_text else ""))
    return found


def day_names(calendar: Calendar, scale: Scale) -> List[Tuple[float, str]]:
    """Returns where the days of a chart of several begin, and their names: the first at the chart's start, the others at midnight."""
    if scale.minutes <= DAY or not calendar.has_days:
        return []
    midnights = [minute for minute in range(DAY - calendar.day_start, scale.minutes, DAY) if minute > 0]
    wanted = [0, *midnights]
    found = []
    for minute, behind in zip(wanted, [*wanted[1:], scale.minutes]):
        room = (behind - minute) * scale.per_minute - 8
        name = next((it for it in calendar.names(minute) if width_of(it, DAY_NAME, True) <= room), None)
        found += [(scale.x(minute), name)] if name else []
    return found


def shape(kind: str, span: Tuple[int, int], scale: Scale, title: str = "", text: str = "") -> Shape:
    """Returns a part of a row."""
    return Shape(kind, scale.x(span[0]), round(scale.x(span[1]) - scale.x(span[0]), 4), title, text)


def fits(text: str, size: float, span: Tuple[int, int], scale: Scale, beside: float = 8) -> bool:
    """Returns whether a text has room in a span."""
    return width_of(text, size) + beside <= (span[1] - span[0]) * scale.per_minute


def texts_of(bar: Bar, calendar: Calendar, scale: Scale) -> List[Text]:
    """Returns the words of a bar that have room: its flight within it, stations and times below its ends, and its mark above. The page's
    script does the same for other scales."""
    leg, per = bar.flown.leg, scale.per_minute
    wide, room = (bar.last - bar.first) * per, (bar.limit - bar.first) * per - GAP
    at = scale.x(bar.first)
    found = []
    letters = next((it for it in FLIGHTS if width_of(leg.flight, it.size, it.weight > 400) + it.beside <= wide), None)
    if letters is not None:
        found.append(Text(letters.kind, scale.x((bar.first + bar.last) / 2), 0, leg.flight))
    if per < ROOMY:
        return found
    over = " ".join(it for it in ("" if letters else leg.flight, bar.mark) if it)
    if over and bar.departs and width_of(over, SMALL, True) <= room:
        found.append(Text("mark" if bar.mark else "over", at, 0, over))
    ends = {"from": (leg.start, calendar.clock(bar.flown.departs), bar.departs), "to": (leg.end, calendar.clock(bar.flown.lands), bar.lands)}
    return found + end_texts(ends, bar, scale, wide, room)


def end_texts(ends: Dict[str, Tuple[str, str, bool]], bar: Bar, scale: Scale, wide: float, room: float) -> List[Text]:
    """Returns stations and times of a bar's ends: each below its end, or side by side, or that of the departure alone."""
    widths = {it: max(width_of(station, SMALL), width_of(time, SMALL)) if has else 0.0 for it, (station, time, has) in ends.items()}
    both = widths["from"] + widths["to"] + (GAP if bar.departs and bar.lands else 0)
    places: Dict[str, Optional[Tuple[str, float, float]]] = {"from": None, "to": None}
    # The departure of the next bar begins where that does, so the arrival before it keeps away from there.
    away = max(0.0, GAP - (bar.limit - bar.last) * scale.per_minute)
    if bar.departs and widths["from"] <= room:
        places["from"] = ("", scale.x(bar.first), 0)
    if bar.lands and both + away <= wide:
        places["to"] = (" end", scale.x(bar.last), -away)
    elif bar.lands and both <= room:
        places["to"] = ("", scale.x(bar.first), both - widths["to"])
    found = []
    for it, (station, time, _) in ends.items():
        place = places[it]
        if place is not None:
            kind, x, dx = place
            found += [Text(f"station {it}{kind}", x, dx, station), Text(f"time {it}{kind}", x, dx, time)]
    return found
