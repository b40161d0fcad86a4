"""What hints say of aircraft that can't start where they are. What the program would tell is written by hand."""

import datetime
import shutil
from pathlib import Path
from typing import List, Tuple

import pytest
from fleetplan.calls import Roster
from fleetplan.files import write_all
from fleetplan.program import Runner
from fleetplan.words import Call
from hints import places, refused_tables, unplaced
from hints.places import Start, starts_of
from hints.saying import WHOLE, Hint

TOP = Path(__file__).resolve().parent.parent.parent
DUE = "2026-11-30 A320/1: FP1 FP2\n2026-11-30 A320/2: FP3\n2026-11-30 A320/3: FP4 FP5\n2026-11-30 A320/4: FP6\n"
# Two flights over the start of days at 00:00 on two days: N1 at 22:00 to 02:00, and back on the second day.
NIGHT_FLIGHT = {
    "stations.csv": "code,extra,maintenance\nAAA,0,yes\nBBB,0,no\n",
    "fleets.csv": "fleet,aircraft,turn\nF1,1,30\n",
    "legs.csv": "flight,day,from,dep,to,arr\nN1,1,AAA,22:00,BBB,02:00\nN2,2,BBB,10:00,AAA,14:00\n",
    "costs.csv": "flight,fleet,cost\nN1,F1,1\nN2,F1,1\n",
    "throughs.csv": "in,out,value\n",
    "plan.csv": "flight,fleet\nN1,F1\nN2,F1\n",
    "tails.csv": "tail,fleet,left,at\nA,F1,1,BBB\n",
}
NIGHT_WORDS = ["2025-02-28", "1", "--period", "2", "--day-start", "00:00", "--first-day", "2025-02-27"]
NIGHT_LINES = "2025-02-28 F1/1: N2\n2025-03-01 F1/1: N1\n"


def answering(text: str, patch: pytest.MonkeyPatch) -> List[Tuple[object, ...]]:
    """Has calls of the program print a text, and returns the list of what they ask for: the date, the number of dates, and options."""
    asked: List[Tuple[object, ...]] = []

    def tails(_: str, date: datetime.date, count: int, __: Runner, **options: object) -> Roster:
        asked.append((date.isoformat(), count, options))
        return Roster(text)

    patch.setattr(places, "tails", tails)
    return asked


def told(call: Call, said: str) -> List[str]:
    """Returns the lines of the hint on what `due` says."""
    hint = Hint(10)
    unplaced.explain(hint, call, said)
    return hint.told(WHOLE).splitlines()[:-1]


def test_starts(monkeypatch: pytest.MonkeyPatch) -> None:
    """Lines begin where the night before has the aircraft, and maintenance comes from them so soon."""
    asked = answering(DUE, monkeypatch)
    call = Call(["due", "--days=4", str(TOP / "examples" / "due"), "2026-11-30", "30"])
    assert starts_of(call, "A320") == [Start("FRA", 1), Start("FRA", 3), Start("MUC", 2), Start("MUC", 1)]
    assert asked == [("2026-11-30", 1, {"days": "4"})]


@pytest.mark.parametrize("least, reaches", [("425", [1, 1, 1]), ("426", [1, 1, 2]), ("611", [1, 3, 2])])
def test_short_nights(least: str, reaches: List[int], monkeypatch: pytest.MonkeyPatch) -> None:
    """A night that is too short isn't the first for maintenance."""
    answering("2026-11-30 A320/1: FP1 FP2\n2026-11-30 A320/2: FP3 FP4\n2026-11-30 A320/3: FP5 FP6\n", monkeypatch)
    found = starts_of(Call(["due", str(TOP / "examples" / "night-hours"), "2026-11-30", "1", "--least-night", least]), "A320")
    assert found == [Start("FRA", it) for it in reaches]


@pytest.mark.parametrize("turn, place", [(30, "N1"), (0, "N1")])
def test_aloft(turn: int, place: str, scratch: Path, monkeypatch: pytest.MonkeyPatch) -> None:
    """A line begins in a flight that is in the air as the day begins, and no ferry gets an aircraft into it."""
    write_all(str(scratch), {**NIGHT_FLIGHT, "fleets.csv": f"fleet,aircraft,turn\nF1,1,{turn}\n"})
    asked = answering(NIGHT_LINES, monkeypatch)
    call = Call(["due", str(scratch), *NIGHT_WORDS])
    assert starts_of(call, "F1") == [Start(place, 1)]
    assert asked[0] == ("2025-02-28", 2, {"day_start": "00:00", "period": "2", "first_day": "2025-02-27"})
    assert told(call, "F1: at N1 tails 0, starts 1\n") == [
        "fleetplan: F1: 1 line begins at N1 on 2025-02-28, and none of its aircraft are there",
        "    BBB: 1 aircraft, 0 lines from there",
        "    N1: 0 aircraft, 1 line from there",
        "  no ferry gets an aircraft into N1: one that is in it as the day begins has N1 in the column at",
    ]


@pytest.mark.parametrize("minutes, place", [("23:29", "BBB"), ("23:30", "N1"), ("23:31", "N1")])
def test_ready(minutes: str, place: str, scratch: Path, monkeypatch: pytest.MonkeyPatch) -> None:
    """An aircraft that gets ready as the day begins is still in its turn, and a minute sooner it is at the station."""
    legs = NIGHT_FLIGHT["legs.csv"].replace("02:00", minutes)
    write_all(str(scratch), {**NIGHT_FLIGHT, "legs.csv": legs})
    answering(NIGHT_LINES, monkeypatch)
    assert [it.place for it in starts_of(Call(["due", str(scratch), *NIGHT_WORDS]), "F1")] == [place]


def due_of(scratch: Path, tails: List[str], monkeypatch: pytest.MonkeyPatch) -> Call:
    """Returns a call of `due` for other tails of the example."""
    folder: Path = shutil.copytree(TOP / "examples" / "due", scratch / "due")
    (folder / "tails.csv").write_text("\n".join(["tail,fleet,left,at", *tails, ""]), encoding="ascii")
    answering(DUE, monkeypatch)
    return Call(["due", str(folder), "2026-11-30", "1"])


def test_ferries(scratch: Path, monkeypatch: pytest.MonkeyPatch) -> None:
    """Where a place lacks aircraft, it is said where there are too many, also in a flight."""
    call = due_of(scratch, ["A,A320,3,MUC", "B,A320,1,FP6", "C,A320,2,MUC", "D,A320,1,MUC"], monkeypatch)
    assert told(call, "A320: at FRA tails 0, starts 2\n2026-11-30 X: Y\n") == [
        "fleetplan: A320: 2 lines begin at FRA on 2026-11-30, and none of its aircraft are there",
        "    FRA: 0 aircraft, 2 lines from there",
        "    MUC: 3 aircraft, 2 lines from there",
        "    FP6: 1 aircraft, 0 lines from there",
        "  ferry one from MUC to FRA, or begin on another date",
        "  the one in FP6 lands at FRA, but only when the day has begun: another one has to be there before",
    ]


def test_late_at(monkeypatch: pytest.MonkeyPatch, scratch: Path) -> None:
    """Where aircraft of a place come too late, it is said with those of which other one they could change."""
    call = due_of(scratch, ["A,A320,1,FRA", "B,A320,3,MUC", "C,A320,2,MUC", "D,A320,1,FRA"], monkeypatch)
    assert told(call, "A320: late at FRA within 1, tails 2, starts 1\n") == [
        "fleetplan: A320: 2 of its aircraft at FRA have to be at a station with maintenance tonight, and 1 can from there",
        "    FRA: 2 aircraft, 1 line so soon",
        "    MUC: 0 aircraft, 1 line so soon",
        "  change one with an aircraft at MUC that has more nights left, by a ferry each way, or maintain it before",
    ]


def test_some_at(monkeypatch: pytest.MonkeyPatch) -> None:
    """Where some aircraft have a place and others none, that is said."""
    answering("", monkeypatch)
    assert told(Call(["due", "d", "2026-11-30", "1"]), "A320: at 1 of 4\n") == [
        "fleetplan: A320: 1 of its 4 aircraft has a place in d/tails.csv, and they have all one or none: write in the column at where each of them"
        " is as 2026-11-30 begins, or take all places away",
    ]


@pytest.mark.parametrize("said", ["A320: at FRA tails 0, starts 2", "A320: late at FRA within 2, tails 2, starts 1"])
def test_unknown(said: str, monkeypatch: pytest.MonkeyPatch) -> None:
    """Where the folder can't be looked at, what is short is said all the same."""
    answering("", monkeypatch)
    assert len(told(Call(["due", "/nowhere", "2026-11-30", "1"]), said)) == 1


# A tails.csv over the tables of NIGHT_FLIGHT, the record and the kind that are refused, and what is said.
FAULTS = (
    ("A,F1,1,BBB\nB,F9,1,aaa\n", 3, 4, "line 3: at is aaa, and capital letters are wanted (write AAA); it is where the aircraft is: "
     "a station, a flight, or nothing"),
    ("A,F1,1,BBBB-1\n", 2, 4, "line 2: at is BBBB-1, and a name is 1 to 8 letters A to Z and digits (as BBBB1); it is where the aircraft is: "
     "a station, a flight, or nothing"),
    ("A,F1,1,BBC\n", 2, 6, "line 2: BBC isn't in stations.csv: the nearest there is BBB"),
    ("A,F1,1,NNN\n", 2, 6, "line 2: NNN isn't in stations.csv, which has AAA and BBB; three letters are a station, also where a flight is called so"),
    ("A,F1,1,N3\n", 2, 7, "line 2: N3 isn't in legs.csv, which has N1 and NNN"),
    ("A,F1,1,\nB,F1,1\n", 3, 2, "line 3: it has 3 fields, and 4 are wanted: tail,fleet,left,at"),
)  # fmt: skip


@pytest.mark.parametrize("rows, record, kind, wanted", FAULTS, ids=[it[0].strip() for it in FAULTS])
def test_table(rows: str, record: int, kind: int, wanted: str, scratch: Path) -> None:
    """What is wrong with where an aircraft is, is said by its line."""
    legs = NIGHT_FLIGHT["legs.csv"].replace("N2,", "NNN,")
    write_all(str(scratch), {**NIGHT_FLIGHT, "legs.csv": legs, "tails.csv": f"tail,fleet,left,at\n{rows}"})
    hint = Hint(6)
    refused_tables.explain(hint, str(scratch), f"bad input: tails.csv record {record} kind {kind}", 2)
    assert hint.told(WHOLE).splitlines()[0] == f"fleetplan: {scratch}/tails.csv, {wanted}"
