"""What the program answers about tours and named aircraft, beside all tours and all choices of walked_tours.py."""

import random
import re
from datetime import date, timedelta
from pathlib import Path
from typing import Dict, List, NamedTuple, Sequence, Tuple

from shared import put, run
from walked_tours import MOST_LEAST, YES, Night, Order, Schedule, Start, Tail, first_choice, have_choice, is_kept

from fleetplan.tables import HEADERS, LOCATED
from fleetplan.times import DAY, clock

DATE = date(2026, 2, 28)
MOST_DAYS = 30
FLOWN = re.compile(r"(\d{4}-\d\d-\d\d) F1/\d+: (.*)")
TOO_FEW = re.compile(r"F1: too few nights (\d+ of \d+)")
LATE, UNPLACED = 10, "F1: "


class Wrong(Exception):
    """An answer that isn't right."""


def want(holds: object, what: str) -> None:
    """Raises Wrong where something doesn't hold."""
    if not holds:
        raise Wrong(what)


class Asked(NamedTuple):
    """What is asked of a schedule: the days that are kept, the least stay of a night for maintenance, the prefixes that are visited, and
    how many days the first date comes after a day 1 of the period."""

    days: int
    least: int
    visits: int
    past: int


class Case:
    """A schedule with what is asked of it, all by a number, laid into a folder."""

    def __init__(self, number: int, program: Path, folder: Path) -> None:
        self.program, self.folder = program, folder
        self.draw = random.Random(f"asked {number}")
        self.schedule = Schedule(number)
        self.schedule.write(folder)
        self.tours = list(self.schedule.tours())
        self.number = self.schedule.used() * self.schedule.period
        self.asked = self._asked()

    def _asked(self) -> Asked:
        draw = self.draw
        stays = [it + more for it in self.schedule.stays() for more in (-1, 0, 1)]
        least = draw.choice([0, MOST_LEAST, *stays * 4])
        fewest = -(-self.number // max(self.maintained, 1))
        days = draw.choice([*[fewest, fewest + 1] * 4, fewest - 1, self.number - 1, self.number, draw.randint(1, MOST_DAYS)])
        return Asked(
            min(max(days, 1), MOST_DAYS), min(max(least, 0), MOST_LEAST), draw.choice([10**6] * 3 + [0]), draw.randrange(3 * self.schedule.period)
        )

    @property
    def maintained(self) -> int:
        """The nights at stations that maintain, however short, as many in each tour: 0 where there is no tour."""
        return sum(it.kind == YES for it in self.schedule.nights(self.tours[0], 0)) if self.tours else 0

    def words(self, command: str, count: int, past: int) -> List[str]:
        """Returns the words of a call for so many dates."""
        told = ["--least-night", str(self.asked.least)] if self.asked.least else []
        first = ["--first-day", str(DATE - timedelta(past))] if past else []
        limits = ["--days", str(self.asked.days), "--visits", str(self.asked.visits), *told, *first]
        reading = ["--day-start", clock(self.schedule.day_start), "--period", str(self.schedule.period)]
        return [command, str(self.folder), str(DATE), str(count), *reading, *limits]

    def call(self, command: str, count: int, past: int = 0) -> Tuple[int, List[str]]:
        """Returns the status of a call, and the lines that it prints."""
        done = run(self.program, *self.words(command, count, past))
        want(not done.told, f"it wrote {done.told!r}")
        return done.status, done.text.splitlines()

    def keeps(self, order: Order) -> bool:
        """Returns whether a tour comes to maintenance as often as is asked for."""
        return is_kept(self.schedule.nights(order, self.asked.least), self.asked.days)


def told_tour(case: Case) -> Tuple[str, Order]:
    """Returns what `tails` says of the fleet, and its tour, if there is one; or raises Wrong where that isn't so by all tours."""
    status, lines = case.call("tails", case.schedule.period)
    want(status == 0 and lines, f"status {status}")
    flown = [FLOWN.fullmatch(it) for it in lines]
    if all(flown):
        by_tail: Dict[int, List[str]] = {}
        for at, it in enumerate(flown):
            by_tail.setdefault(at % case.schedule.used(), []).append(it[2] if it else "")
        names = [name for lines in by_tail.values() for line in lines for name in line.split() if name != "-"]
        legs = {it.name: it for it in case.schedule.legs}
        tour = tuple(legs[it] for it in names)
        want(sorted(names) == sorted(legs) and turned(tour, case.schedule.legs[0].name) in case.tours, f"no tour is {' '.join(names)}")
        want(case.keeps(tour), f"the tour {' '.join(names)} isn't kept")
        return "tour", tour
    want(len(lines) == 1, f"it says {lines}")
    check_none(case, lines[0])
    return lines[0], ()


def turned(tour: Order, first: str) -> Order:
    """Returns a tour from the leg of a name on."""
    at = next(place for place, it in enumerate(tour) if it.name == first)
    return tour[at:] + tour[:at]


def check_none(case: Case, line: str) -> None:
    """Raises Wrong where a fleet has a kept tour, or why it has none isn't as is told."""
    spent = line == "F1: visits spent"
    kept = next((it for it in case.tours if case.keeps(it)), None)
    if spent:
        want(case.asked.visits == 0, "so many visits aren't spent")
        want(case.asked.least > 0 or case.asked.days < case.number, "no visit is wanted for as many days as nights")
    else:
        want(kept is None, f"{line}, and {' '.join(it.name for it in kept or ())} is kept")
    few = TOO_FEW.fullmatch(line)
    if not case.tours:
        want(few or re.fullmatch(r"F1: apart \d+ legs", line), f"{line}, and there is no tour")
        return
    told = f"{case.maintained} of {case.number}"
    want(bool(few) == (case.maintained * case.asked.days < case.number), f"{line}, with {told} nights")
    want(not few or few[1] == told, f"{line}, with {told} nights")
    want(few or spent or line == "F1: none", f"{line}, and there are tours")


class Lines:
    """The lines of a tour: the legs of each, and the night that ends it."""

    def __init__(self, schedule: Schedule, tour: Order, least: int) -> None:
        self.flights: List[List[str]] = []
        self.nights: List[Night] = []
        line: List[str] = []
        for one, other in zip(tour, tour[1:] + tour[:1]):
            line.append(one.name)
            for night in schedule.passed(one, other, least):
                self.flights.append(line)
                self.nights.append(night)
                line = []
        # The first lines are those of the days of the period before the tour's first leg.
        before = len(self.nights) - tour[0].departs // DAY
        self.flights = self.flights[before:] + self.flights[:before]
        self.nights = self.nights[before:] + self.nights[:before]

    def start(self, line: int) -> Start:
        """Returns a line as a start."""
        count = len(self.nights)
        reach = next((more for more in range(1, count + 1) if self.nights[(line + more - 1) % count].kind == YES), 10**6)
        return Start(line, reach, self.nights[line - 1].place)


def drawn_tails(case: Case, starts: Sequence[Start]) -> List[Tail]:
    """Returns tails of the fleet, mostly such that a choice is there or nearly is."""
    draw = case.draw
    count = len(starts) + draw.choice([0] * 12 + [-1, 1])
    taken = draw.sample(list(starts), len(starts)) + list(starts)
    spread = draw.choice([0, 0, 1, 3, 30])
    how = draw.choice(["none", "all", "all", "all", "all", "some"])
    found = []
    for number, it in enumerate(taken[:count]):
        left = min(max(it.reach + draw.choice([0, 0, 0, 1, -1]) + draw.randint(0, spread), 1), MOST_DAYS)
        place = it.place if draw.random() < 0.9 else draw.choice(case.schedule.places)
        is_there = how == "all" or how == "some" and draw.random() < 0.5
        found.append(Tail(f"T{number}", left, place if is_there else ""))
    return found


def cause(places: Sequence[str], tails: Sequence[Tail], starts: Sequence[Start]) -> str:
    """Returns what is told in the place of a choice, or an empty text. Places are in the order of their tables."""

    def late(those: Sequence[Tail], near: Sequence[Start]) -> str:
        for left in range(1, MOST_DAYS + 1):
            counts = sum(it.left <= left for it in those), sum(it.reach <= left for it in near)
            if counts[0] > counts[1]:
                return "within {}, tails {}, starts {}".format(left, *counts)
        return ""

    if len(tails) != len(starts):
        return f"tails {len(tails)} of {len(starts)}"
    if late(tails, starts):
        return f"late {late(tails, starts)}"
    placed = [it for it in tails if it.place]
    if len(placed) in range(1, len(tails)):
        return f"at {len(placed)} of {len(tails)}"
    at = {it: ([tail for tail in placed if tail.place == it], [start for start in starts if start.place == it]) for it in places}
    for place, (those, near) in at.items() if placed else ():
        if len(those) < len(near):
            return f"at {place} tails {len(those)}, starts {len(near)}"
    for place, (those, near) in at.items() if placed else ():
        if late(those, near):
            return f"late at {place} {late(those, near)}"
    return ""


def check_due(case: Case, tour: Order) -> str:
    """Asks `due` about tails of a tour, and returns the kind of its answer; or raises Wrong where that isn't so by all choices."""
    schedule, past, period = case.schedule, case.asked.past, case.schedule.period
    lines = Lines(schedule, tour, case.asked.least)
    starts = [lines.start(at * period + past % period) for at in range(schedule.used())]
    tails = drawn_tails(case, starts)
    is_old = not any(it.place for it in tails) and case.draw.random() < 0.5
    rows = [(it.name, "F1", it.left) if is_old else (it.name, "F1", it.left, it.place) for it in tails]
    put(case.folder, {"tails.csv": rows}, tails=HEADERS["tails.csv"] if is_old else LOCATED)
    status, told = case.call("due", 2, past)
    why, is_mixed = cause(schedule.places, tails, starts), any(it.place for it in tails) and not all(it.place for it in tails)
    want(is_mixed or (not why) == have_choice(tails, starts), f"by its causes it says {why!r}, and by all choices it doesn't")
    if why:
        want((status, told) == (LATE, [f"{UNPLACED}{why}"]), f"it says {status} {told}, and it is {why} of {tails} and {starts}")
        return re.sub(r"[A-Z]\w+|\d+", "..", why)
    chosen = first_choice(tails, starts) or {}
    wanted = []
    for after in range(2):
        for it in tails:
            flights = lines.flights[(chosen[it.name].line + after) % len(lines.flights)]
            wanted.append(f"{DATE + timedelta(after)} {it.name}: {' '.join(flights) or '-'}")
    want((status, told) == (0, wanted), f"it says {status} {told}, and it is {wanted} of {tails} and {starts}")
    return "lines by places" if any(it.place for it in tails) else "lines"


def tried(number: int, program: Path, folder: Path) -> List[str]:
    """Tries a schedule and tails of its tour, and returns the kinds of the answers; or raises Wrong."""
    case = Case(number, program, folder)
    try:
        told, tour = told_tour(case)
        kinds = [told if told == "tour" else re.sub(r"\d+", "..", told.partition(": ")[2])]
        return [*kinds, check_due(case, tour)] if tour else kinds
    except Wrong as what:
        raise Wrong(f"{number}: {what}; {' '.join(case.words('tails', 1, 0)[4:])}") from what
