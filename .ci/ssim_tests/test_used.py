"""Only what is used is judged: warnings by line; the file that is read is written over only where that is asked for; and the variations from
UTC in names.csv, with a season over the end of daylight saving."""

import subprocess
import sys
from pathlib import Path
from typing import Dict, List, Tuple

import pytest
from drawing.zones import local_times, zones_of
from schedule_lines import carrier, header, leg, numbered, segment, text, trailer
from ssim_tests.test_features import back, out
from ssim_tests.test_flyable import WHOLE, lay, write
from ssim_tests.test_plans import DATE, file_of, plan_text
from ssim_tests.trying import TOP, asked, records, standing

ONE, TWO = out(), back()
DATA = segment(ONE, "010", "XY 7001")
LINES = file_of(ONE, DATA, TWO)
FLEETS = "fleet,aircraft,turn\n320,9,30\nE90,9,30\n"
# What is told of warnings at their end.
END = "none is of what is used, and all stays as it is"


def put(line: str, at: int, more: str) -> str:
    """Returns a line with a text from a byte on."""
    return line[: at - 1] + more + line[at - 1 + len(more) :]


def in_bytes(lines: List[str], coding: str = "ascii") -> bytes:
    """Returns lines as a file."""
    return "".join(f"{it}\r\n" for it in lines).encode(coding)


# Of each case the bytes of a file, and the warnings by their lines.
WARNED: Dict[str, Tuple[bytes, List[str]]] = {
    "a board point": (in_bytes([*LINES[:3], put(LINES[3], 34, "zrh"), *LINES[4:]]), [
        'line 4: board point is "zrh" (bytes 34 to 36), it should be three letters A to Z',
    ]),
    "both points": (in_bytes([*LINES[:3], put(LINES[3], 34, "   L 1"), *LINES[4:]]), [
        'line 4: board point is "   " (bytes 34 to 36), it should be three letters A to Z',
        'line 4: off point is "L 1" (bytes 37 to 39), it should be three letters A to Z',
    ]),
    "letters in Latin-1": (in_bytes([LINES[0], put(LINES[1], 40, "Zürich"), *LINES[2:]], "latin-1"), ["line 2: byte 41 isn't ASCII"]),
    "letters in UTF-8": (in_bytes([LINES[0], put(LINES[1], 40, "Zürich Łódź €"), *LINES[2:]], "utf-8"), ["line 2: byte 41 isn't ASCII"]),
    "an empty line": (in_bytes(LINES) + b"\r\n", ["line 7: an empty line stands behind the trailer"]),
    "Ctrl-Z": (in_bytes(LINES) + b"\x1a", ["line 7: Ctrl-Z stands behind the trailer"]),
    "Ctrl-Z in the trailer's line": (in_bytes(LINES)[:-2] + b"\x1a", ["line 6: Ctrl-Z stands behind the trailer"]),
    "two empty lines and Ctrl-Z": (in_bytes(LINES) + b"\r\n\r\n\x1a", [
        "line 7: an empty line stands behind the trailer", "line 8: an empty line stands behind the trailer", "line 9: Ctrl-Z stands behind the trailer",
    ]),
    "no end of the last line": (in_bytes(LINES)[:-2], []),
    "nothing": (in_bytes(LINES), []),
}  # fmt: skip


@pytest.mark.usefixtures("program")
@pytest.mark.parametrize("name", WARNED)
def test_warnings(name: str, scratch: Path) -> None:
    """What isn't used is told by its line and counted, read all the same, and stays as it is in a new file."""
    data, lines = WARNED[name]
    (scratch / "season").write_bytes(data)
    (scratch / "fleets").write_text(FLEETS, encoding="ascii")
    status, told = asked("tables", scratch / "season", scratch / "day", "--date", DATE, "--fleets", scratch / "fleets")
    own = [it.replace(f"{scratch}/", "") for it in told.splitlines() if "warning" in it]
    count = [f"ssim: {len(lines)} warning{'s' if len(lines) > 1 else ''}: {END}"] if lines else []
    assert (status, own) == (0, [*(f"ssim: warning: season {it}" for it in lines), *count])
    assert records(scratch / "day", "plan.csv") == ["ZZ1,320", "ZZ2,320"]
    assert asked("plan", scratch / "season", scratch / "day", scratch / "new")[0] == 0
    assert (scratch / "new").read_bytes() == data
    (scratch / "day" / "plan.csv").write_text(plan_text({"ZZ1": "E90", "ZZ2": "E90"}), encoding="ascii")
    assert asked("plan", scratch / "season", scratch / "day", scratch / "new", WHOLE)[0] == 0
    new = (scratch / "new").read_bytes()
    # The second line, and what stands behind the trailer.
    assert new.split(b"\r\n")[1] == data.split(b"\r\n")[1] and new.partition(b"\r\n5 ZZ ")[2][195:] == data.partition(b"\r\n5 ZZ ")[2][195:]


def test_many_warnings(scratch: Path) -> None:
    """The first warnings are told, and all are counted."""
    lines = numbered([header(), carrier("ZZ"), ONE, *[put(DATA, 34, "?")] * 9, trailer("ZZ")])
    (scratch / "season").write_bytes(in_bytes(lines))
    (scratch / "fleets").write_text(FLEETS, encoding="ascii")
    told = asked("tables", scratch / "season", scratch / "day", "--date", DATE, "--fleets", scratch / "fleets")[1].splitlines()
    assert [it.split(": ")[1] for it in told[:7]] == ["warning"] * 6 + ["9 warnings, 3 more than are told"]


@pytest.mark.parametrize("data, line", [
    (in_bytes([*LINES[:2], "", *LINES[2:]]), "line 3: the line has 0 bytes (bytes 1 to 0), it should be 200 bytes long"),
    (in_bytes([LINES[0], put(LINES[1], 11, "Ü26"), *LINES[2:]], "utf-8"), 'line 2: season is "\\xdc26" (bytes 11 to 13), it should be S or W and two digits, or blank'),
    (in_bytes(LINES[:-1]) + b"\r\n\x1a", "line 6: the file ends (bytes 1 to 200), it should be 3, a leg, 4, data of a segment, or 5, the trailer"),
    (b"\r\n\x1a", "line 1: the line has 0 bytes (bytes 1 to 0), it should be 200 bytes long"),
], ids=["an empty line among records", "a letter in a field", "no trailer", "nothing else"])  # fmt: skip
def test_still_refused(data: bytes, line: str, scratch: Path) -> None:
    """What is used is judged as ever."""
    (scratch / "season").write_bytes(data)
    status, told = asked("tables", scratch / "season", scratch / "day", "--date", DATE)
    assert (status, told) == (6, f"ssim: {scratch}/season {line}\n")


@pytest.mark.usefixtures("program")
def test_in_place(scratch: Path) -> None:
    """The file that is read is written over only where that is asked for, also by another name."""
    lay(scratch, [ONE, TWO], "320 1, E90 1", {"ZZ1": "E90", "ZZ2": "E90"})
    season, day = scratch / "season", scratch / "day"
    before = standing(scratch)
    (scratch / "link").symlink_to(season)
    for new in (season, scratch / "link", scratch / "day" / ".." / "season"):
        status, told = asked("plan", season, day, new, "--anyway")
        assert (status, told) == (7, f"ssim: {new} is the file that is read: --in-place in the place of NEW writes it\n")
    (scratch / "link").unlink()
    assert standing(scratch) == before
    status, told = asked("plan", season, day, scratch / "new", "--in-place")
    assert (status, told.splitlines()[0]) == (2, "ssim: --in-place writes FILE itself, and NEW is another")
    assert asked("plan", season, day, scratch / "new")[0] == asked("plan", season, day, "--in-place")[0] == 0
    assert season.read_bytes() == (scratch / "new").read_bytes() != before["season"]


# Over the end of daylight saving, on 25 October: the flights keep their local times, DXB has no daylight saving.
SUMMER, WINTER = ("01SEP26", "24OCT26"), ("25OCT26", "31DEC26")
SAVING = [
    leg("ZZ", 1, "DXB 0200 +0400 ZRH 0700 +0200", "320", period=SUMMER), leg("ZZ", 1, "DXB 0200 +0400 ZRH 0600 +0100", "320", period=WINTER, variation=2),
    leg("ZZ", 2, "ZRH 0740 +0200 DXB 1540 +0400", "320", period=SUMMER), leg("ZZ", 2, "ZRH 0740 +0100 DXB 1640 +0400", "320", period=WINTER, variation=2),
    leg("ZZ", 3, "ZRH 0600 +0200 LHR 0650 +0100", "E90", period=SUMMER), leg("ZZ", 3, "ZRH 0600 +0100 LHR 0650 +0000", "E90", period=WINTER, variation=2),
    leg("ZZ", 4, "LHR 0730 +0100 ZRH 1020 +0200", "E90", period=SUMMER), leg("ZZ", 4, "LHR 0730 +0000 ZRH 1020 +0100", "E90", period=WINTER, variation=2),
]  # fmt: skip


@pytest.fixture(name="saving")
def _saving(scratch: Path) -> Path:
    """The week in which daylight saving ends, from Monday 19 October on."""
    lines = numbered([header(), carrier("ZZ", "L", ("01SEP26", "31DEC26")), *SAVING, trailer("ZZ")])
    (scratch / "season").write_bytes(text(lines).encode("ascii"))
    (scratch / "fleets").write_text("fleet,aircraft,turn\n320,1,30\nE90,1,30\n", encoding="ascii")
    assert asked("tables", scratch / "season", scratch / "day", "--week", "2026-10-19", "--fleets", scratch / "fleets")[0] == 0
    return scratch


def test_variations(saving: Path) -> None:
    """names.csv has the variations from UTC of both ends on each date, and the local times are told by them."""
    own = [it for it in records(saving / "day", "names.csv") if it.startswith(("ZZ2D6", "ZZ2D7"))]
    assert own == ["ZZ2D6,ZZ,2,,01,1,5,2026-10-24,+0200,+0400", "ZZ2D7,ZZ,2,,02,1,6,2026-10-25,+0100,+0400"]
    legs = [it for it in records(saving / "day", "legs.csv") if it.startswith(("ZZ2D6", "ZZ2D7"))]
    assert legs == ["ZZ2D6,6,ZRH,05:40,DXB,11:40", "ZZ2D7,7,ZRH,06:40,DXB,12:40"]
    zones = zones_of(str(saving / "day"))
    assert local_times(zones, "ZZ2D7", 400, 760) == "local time 07:40 to 16:40"
    # A departure at 22:00 in UTC is one at 02:00 on the next day.
    assert local_times(zones, "ZZ1D6", 22 * 60, 29 * 60) == "local time 02:00 to 06:00"
    assert local_times(zones, "ZZ2D7", 400, 760 + 720) == "local time 07:40 to 04:40 +1"
    assert (local_times(zones, "ZZ9", 400, 760), zones_of(str(saving / "nothing"))) == (None, {})


@pytest.mark.usefixtures("program")
def test_the_end_of_daylight_saving(saving: Path) -> None:
    """The 320 from DXB lands at 05:00 in UTC, in summer and in winter, and goes back at 05:40 in summer and at 06:40 in winter. Fifteen
    minutes earlier on Sundays, which are of the winter here, it can be flown, and on Saturdays, which are of the summer, it can't."""
    plan = [it.split(",") for it in records(saving / "day", "plan.csv")]
    for flight, status in (("ZZ2D7", 0), ("ZZ2D6", 9)):
        rows = "".join(f"{it},{fleet},{-15 if it == flight else 0}\n" for it, fleet in plan)
        (saving / "day" / "plan.csv").write_text(f"flight,fleet,shift\n{rows}", encoding="ascii")
        came, told = write(saving, WHOLE)
        assert came == status, told
    sides = "ZZ1 is ready there at 2026-09-11 05:30, and ZZ1 is ready there at 2026-09-12 05:30"
    place = f"at ZRH on 2026-09-12 05:25 no aircraft is there for ZZ2; {sides}"
    assert f"320 would need 2 aircraft in the 7 days from 2026-09-07 and 5 weeks like these, and has 1: {place}" in told
    assert "aircraft in the 7 days from 2026-10-19, as filed, with the plan and in fleets.csv: 320 1 2 1, E90 1 1 1" in told


@pytest.mark.usefixtures("program")
def test_local_times_are_drawn(saving: Path) -> None:
    """A page has local times where names.csv has the variations from UTC, at the times of the plan."""
    rows = records(saving / "day", "plan.csv")
    words = [sys.executable, "-B", str(TOP / "tools" / "draw"), str(saving / "day")]
    for is_there in (True, False):
        ran = subprocess.run(words, stdin=subprocess.DEVNULL, stdout=subprocess.PIPE, stderr=subprocess.STDOUT, text=True, check=False)
        assert ran.returncode == 0, ran.stdout
        page = (saving / "day" / "plan.html").read_text(encoding="utf-8")
        assert len(rows) == 28 and [it in page for it in ("local time 07:40 to 15:40", "local time 07:40 to 16:40")] == [is_there] * 2
        (saving / "day" / "names.csv").unlink(missing_ok=True)


@pytest.mark.usefixtures("program")
def test_header_of_before(saving: Path) -> None:
    """A names.csv without variations still reads, in plan and in the drawing."""
    path = saving / "day" / "names.csv"
    rows = path.read_text(encoding="ascii").splitlines()
    path.write_text("".join(f"{it.rsplit(',', 2)[0]}\n" for it in rows), encoding="ascii")
    (saving / "day" / "made.csv").unlink()
    assert asked("plan", saving / "season", saving / "day", saving / "new")[0] == 0
    assert (saving / "new").read_bytes() == (saving / "season").read_bytes()
    assert zones_of(str(saving / "day")) == {}
