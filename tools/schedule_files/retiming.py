"""A leg that departs later or earlier: the bytes of its record that say when it departs and arrives."""

import itertools
from typing import Dict, Iterable, Sequence, Tuple

from fleetplan.times import DAY
from schedule_files.days import ALL_DAYS, DATE_VARIATIONS, LAST_DAY, OPEN, TIMES, WEEK, text_of, weekday_of
from schedule_files.layout import LEG, BadLine
from schedule_files.reading import Leg, Schedule
from schedule_files.splitting import FORTNIGHT, Held

# The letter of each date variation, a blank being another one of 0.
LETTERS = {days: letter for letter, days in DATE_VARIATIONS.items() if letter != " "}
EARLIEST, LATEST = min(LETTERS), max(LETTERS)


class End:
    """The departure or the arrival of a leg: the fields of its aircraft's and its passengers' time, and of its date variation."""

    def __init__(self, name: str) -> None:
        self.aircraft, self.passengers = LEG[f"aircraft's time of {name}"], LEG[f"passengers' time of {name}"]
        self.variation = LEG[f"{name}'s date variation"]

    def day(self, line: str, shift: int) -> int:
        """Returns how many days behind the date of operation this end is, by so many minutes later than filed."""
        filed = DATE_VARIATIONS[self.variation.of(line)]
        return filed + (TIMES[self.aircraft.of(line)] + shift) // DAY if shift else filed

    def put(self, line: str, shift: int, move: int) -> str:
        """Returns a line with this end later by a shift, and its day counted from a date of operation that is moved by some days."""
        day = self.day(line, shift) - move
        if shift:
            for field in (self.aircraft, self.passengers):
                line = field.put(line, later(field.of(line), shift))
        return line if day == DATE_VARIATIONS[self.variation.of(line)] else self.variation.put(line, LETTERS[day])


ENDS = End("departure"), End("arrival")


def later(text: str, shift: int) -> str:
    """Returns a time of the day by so many minutes later, or a blank one as it is."""
    if not text.strip():
        return text
    minute = (TIMES[text] + shift) % DAY
    return f"{minute // 60:02}{minute % 60:02}"


def retimed(line: str, shift: int, move: int) -> str:
    """Returns a leg's line with both ends later by a shift, and their days counted from a date of operation that is moved by some."""
    for end in ENDS:
        line = end.put(line, shift, move)
    return line


def move_of(schedule: Schedule, shifts: Sequence[Tuple[Leg, int]]) -> int:
    """Returns by how many days the dates of operation of an itinerary have to move, so that date variations can say on which days its
    legs depart and arrive: by none nearly always. The legs come with their shifts."""
    if not any(shift for _, shift in shifts):
        return 0
    days = [(end.day(schedule.lines[leg.number - 1], shift), end, leg) for leg, shift in shifts for end in ENDS]
    least, (most, end, leg) = (it(days, key=lambda day: day[0]) for it in (min, max))
    move = min(least[0] - EARLIEST, 0) or max(most - LATEST, 0)
    if most - move > LATEST:
        what = f"{end.variation.name} would be {most - move} by the plan"
        raise BadLine(schedule.path, leg.number, what, end.variation.where, f"{LATEST} at most")
    return move


def moved(schedule: Schedule, leg: Leg, held: Held, move: int) -> Held:
    """Returns a leg's first and last date and its days of operation, all moved by some days: its carrier record's validity has them
    before and after."""
    if not move:
        return held
    start, end, days = held
    if leg.rate != "2":
        start = next(it for it in range(start, start + WEEK) if days[weekday_of(it) - 1] != " ")
    first, last = leg.carrier.start, leg.carrier.end
    end = min(end, last)
    before, start, end = start, start + move, end if end == OPEN else end + move
    if min(before, start) < first or start > end or OPEN != end > min(last, LAST_DAY):
        what = f"the period would be {text_of(start)} to {text_of(end)} by the plan"
        should = f"within {text_of(first)} to {text_of(last)} as in line {leg.carrier.number}"
        raise BadLine(schedule.path, leg.number, what, "bytes 15 to 28", should)
    return start, end, "".join(it if days[(at - move) % WEEK] != " " else " " for at, it in enumerate(ALL_DAYS))


def common_dates(legs: Iterable[Leg]) -> Dict[Tuple[str, int, str], int]:
    """Returns of each flight that has one leg twice on a date of operation the first such date."""
    found = {}
    for one, other in itertools.combinations(legs, 2):
        if (one.name, one.sequence) == (other.name, other.sequence) and one.name not in found:
            first = max(one.start, other.start, one.carrier.start, other.carrier.start)
            last = min(one.end, other.end, one.carrier.end, other.carrier.end, first + FORTNIGHT - 1)
            date = next((it for it in range(first, last + 1) if one.operates(it) and other.operates(it)), None)
            found.update({one.name: date} if date else {})
    return found
