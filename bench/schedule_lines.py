"""Lines of schedule files (chapter 7 of the Standard Schedules Information Manual), for made airlines. It shares no code with
tools/schedule_files: it puts texts at bytes."""

from typing import Iterable, List, Sequence, Tuple

LENGTH = 200
ZEROS = "0" * LENGTH
SEASON = ("25OCT26", "27MAR27")
EVERY_DAY = "1234567"


def zone(minutes: int) -> str:
    """A variation from UTC."""
    return f"{'-' if minutes < 0 else '+'}{abs(minutes) // 60:02}{abs(minutes) % 60:02}"


def line(*texts: Tuple[int, str]) -> str:
    """A line with texts at their first bytes, counted from 1, and blanks between."""
    row = [" "] * LENGTH
    for at, text in texts:
        row[at - 1 : at - 1 + len(text)] = text
    return "".join(row)


def header() -> str:
    """A header record."""
    return line((1, "1AIRLINE STANDARD SCHEDULE DATA SET"), (41, "1"), (192, "001"))


def carrier(airline: str, mode: str = "L", period: Sequence[str] = SEASON, season: str = "W26") -> str:
    """A carrier record."""
    return line((1, "2" + mode), (3, airline), (11, season), (15, "".join(period)), (29, "01OCT26"), (36, "MADE SCHEDULE"), (72, "P"))


def leg(
    airline: str,
    flight: int,
    way: str,
    kind: str,
    days: str = EVERY_DAY,
    period: Sequence[str] = SEASON,
    variation: int = 1,
    sequence: int = 1,
    service: str = "J",
    shifts: str = "00",
    **more: str,
) -> str:
    """A leg's record. `way` is a station with its time and its variation from UTC, twice. `more` are texts at bytes, as b149="Z"."""
    origin, dep, dep_zone, destination, arr, arr_zone = way.split()
    operates = "".join(it if it in days else " " for it in EVERY_DAY)
    texts = [
        (1, "3"), (3, airline), (6, f"{flight:04}"), (10, f"{variation % 100:02}"), (12, f"{sequence:02}"), (14, service), (15, "".join(period)),
        (29, operates), (37, origin + dep + dep + dep_zone), (55, destination + arr + arr + arr_zone), (73, kind), (76, "CDMY"),
        (173, "C20Y150"), (193, shifts),
    ]  # fmt: skip
    return line(*texts, *((int(at[1:]), text) for at, text in more.items()))


def segment(of: str, element: str, text: str) -> str:
    """A record of segment data below the leg's."""
    return line((1, "4" + of[1:14]), (28, of[127]), (29, "AB"), (31, element), (34, of[36:39] + of[54:57]), (40, text))


def trailer(airline: str, end: str = "E") -> str:
    """A trailer."""
    return line((1, "5"), (3, airline), (6, "01OCT26"), (194, end))


def numbered(lines: Iterable[str]) -> List[str]:
    """The lines with serial numbers, and the trailers' checks of them."""
    serial, done = 0, []
    for it in lines:
        if it != ZEROS:
            check = f"{serial:06}{it[193]}" if it[0] == "5" else it[187:194]
            serial += 1
            it = f"{it[:187]}{check}{serial:06}"
        done.append(it)
    return done


def whole(airline: str, legs: Iterable[str], mode: str = "L") -> List[str]:
    """The lines of a file of one carrier, with zeros that fill its blocks of five."""
    body = list(legs)
    fill = [ZEROS] * (-len(body) % 5)
    return numbered([header(), *[ZEROS] * 4, carrier(airline, mode), *[ZEROS] * 4, *body, *fill, trailer(airline), *[ZEROS] * 4])


def text(lines: Iterable[str], end: str = "\r\n") -> str:
    """The text of a file with these lines."""
    return "".join(it + end for it in lines)
