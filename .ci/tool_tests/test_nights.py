"""Nights that are too short for maintenance: as rotation.csv tells them, and as they are drawn."""

import os
import re
import subprocess
import sys
from pathlib import Path
from typing import List, Sequence, Tuple

import pytest
from fleetplan.errors import REFUSED, Unread
from fleetplan.files import write_all
from fleetplan.rotations import Rotation, is_by_least_night, least_night_of, rotations_of
from fleetplan.schedule import Schedule

TOP = Path(__file__).resolve().parent.parent.parent
# Three aircraft leave FRA in the morning, and come back in the evening: from there they stay for 11:15, 10:10 and 7:05 hours.
TABLES = {
    "stations.csv": "code,extra,maintenance\nFRA,0,yes\nHAM,0,no\nMUC,0,no\nVIE,0,no\n",
    "fleets.csv": "fleet,aircraft,turn\nA320,3,40\n",
    "legs.csv": "flight,from,dep,to,arr\nFP1,FRA,06:10,HAM,07:15\nFP2,HAM,18:25,FRA,19:30\nFP3,FRA,06:45,MUC,07:40\n"
    "FP4,MUC,21:15,FRA,22:10\nFP5,FRA,08:20,VIE,09:40\nFP6,VIE,21:40,FRA,23:05\n",
    "costs.csv": "flight,fleet,cost\n" + "".join(f"FP{it},A320,100\n" for it in range(1, 7)),
    "throughs.csv": "in,out,value\n",
    "plan.csv": "flight,fleet\n" + "".join(f"FP{it},A320\n" for it in range(1, 7)),
}
STAYS = [675, 610, 425]


def rotation(nights: Sequence[str], station: str = "FRA") -> str:
    """Returns a rotation.csv of the one tour, with what is told of its nights."""
    lines = ["fleet,round,kind,a,b", "A320,1,tour,3,6"]
    for number, night in enumerate(nights, 1):
        lines += [f"A320,1,leg,FP{2 * number - 1},0", f"A320,1,leg,FP{2 * number},1", f"A320,1,night,{station},{night}"]
    return "".join(f"{it}\n" for it in lines)


def laid(folder: Path, nights: Sequence[str], **tables: str) -> Path:
    """Lays the tables out, with a rotation."""
    more = {f"{name}.csv": text for name, text in tables.items()}
    write_all(str(folder), {**TABLES, "rotation.csv": rotation(nights), **more})
    return folder


def read(folder: Path) -> List[Rotation]:
    """Returns the rotations of a folder."""
    return rotations_of(*Schedule.read(str(folder)).planned())


@pytest.mark.parametrize("least, told", [(0, "yes yes yes"), (426, "yes yes short"), (611, "yes short short"), (676, "short short short")])
def test_read(least: int, told: str, scratch: Path) -> None:
    """Each night is told as it stands there, with the stay after its flight, and the least night by which they are so is found."""
    nights = told.split()
    found = read(laid(scratch, nights))
    tour = [it for it in found[0].tour if it.nights]
    assert [it.stay for it in tour] == STAYS
    assert [it.nights for it in tour] == [[("FRA", night == "yes", night == "short")] for night in nights]
    assert least_night_of(found) == least
    assert [is_by_least_night(found, it) for it in (least - 1, least)] == [not least, True]


@pytest.mark.parametrize("nights", [["short", "yes", "yes"], ["yes", "short", "yes"], ["yes", "no", "short"], ["aloft", "yes", "yes"]], ids=" ".join)
def test_not_by_minutes(nights: List[str], scratch: Path) -> None:
    """Nights that no least night makes so are refused."""
    with pytest.raises(Unread) as error:
        read(laid(scratch, nights))
    assert error.value.status == REFUSED


def test_short_elsewhere(scratch: Path) -> None:
    """A night is short only where the station maintains."""
    stations = TABLES["stations.csv"].replace("FRA,0,yes", "FRA,0,no")
    assert read(laid(scratch, ["no", "no", "no"], stations=stations))
    with pytest.raises(Unread):
        read(laid(scratch, ["no", "no", "short"], stations=stations))


def test_short_of_a_day(scratch: Path) -> None:
    """A stay of more than a day is never short: here one from 09:15 on day 1 to 12:00 on day 2, of two days."""
    tables = {
        "legs.csv": "flight,day,from,dep,to,arr\nFP1,2,FRA,12:00,HAM,13:00\nFP2,1,HAM,08:15,FRA,09:15\n",
        "costs.csv": "flight,fleet,cost\nFP1,A320,100\nFP2,A320,100\n",
        "plan.csv": "flight,fleet\nFP1,A320\nFP2,A320\n",
    }
    for night, is_right in (("yes", True), ("short", False)):
        rows = f"A320,1,tour,2,2\nA320,1,leg,FP1,1\nA320,1,night,HAM,no\nA320,1,leg,FP2,1\nA320,1,night,FRA,{night}\n"
        write_all(str(scratch), {**TABLES, **tables, "rotation.csv": f"fleet,round,kind,a,b\n{rows}"})
        try:
            found = rotations_of(*Schedule.read(str(scratch), period=2).planned())
        except Unread:
            assert not is_right
        else:
            assert is_right and found[0].tour[1].stay == 1605


def drawn(folder: Path, *words: str) -> Tuple[str, int]:
    """Returns the page of a folder, or what is said where there is none, and the status."""
    where = {**os.environ, "PYTHONDONTWRITEBYTECODE": "1"}
    command = [sys.executable, str(TOP / "tools" / "draw"), str(folder), *words]
    ran = subprocess.run(command, env=where, stdout=subprocess.PIPE, stderr=subprocess.STDOUT, text=True, check=False)
    return ran.stdout if ran.returncode else (folder / "plan.html").read_text(encoding="utf-8"), ran.returncode


def test_drawn(scratch: Path) -> None:
    """A short night is drawn empty, with its minutes, and isn't counted; the others are as ever."""
    page, status = drawn(laid(scratch, ["yes", "short", "short"]))
    assert status == 0
    nights = re.findall(r'<g class="stay ([a-z ]+)" data-text="FRA"( data-stay="\d+")?><title>([^<]*)</title>', page)
    # The night of each row's beginning and that of its end, which are one night each after the other.
    assert {it for it in nights if it[0] == "maintained"} == {("maintained", "", "at FRA for the night, where it can be maintained")}
    shorts = {(stay, title) for kind, stay, title in nights if kind == "night short"}
    assert shorts == {(f' data-stay="{it}"', f"at FRA for the night, too short to be maintained: {it} minutes") for it in (610, 425)}
    assert ">1 of 3</td>" in page and "night at FRA, short: 610 min" in page and "night at FRA, maintenance" in page
    assert "a night too short for that" in page


def test_drawn_without(scratch: Path) -> None:
    """Where no night is short, nothing is said of that."""
    page, status = drawn(laid(scratch, ["yes", "yes", "yes"]))
    assert status == 0 and ">3 of 3</td>" in page and "short" not in page.partition("<script")[0].partition("</style>")[2]
