"""Plans with shifts and with legs left out, written back: the records that they change, and when all legs depart then."""

import datetime
import random
from pathlib import Path
from typing import Any, Dict, List, Optional, Sequence, Tuple

import pytest
from schedule_lines import carrier, header, leg, numbered, segment, trailer, whole
from ssim_tests.test_plans import DATE, LATER, ONE, THREE, TWO, WAY, every_day, file_of, plan_text, planned
from ssim_tests.trying import EXAMPLE, call, records, standing

DAY = 1440
# Plans that are drawn, each by a number.
DRAWS = 16
MONDAY = ("30NOV26", "30NOV26")
NIGHT = leg("ZZ", 1, "ZRH 2350 +0100 LHR 0050 +0000", "320", "1", MONDAY, shifts="01")
MORNING = leg("ZZ", 1, "LIS 0010 +0000 FNC 0150 +0000", "320", "1", MONDAY, shifts="  ")
# On Tuesdays, which are Mondays in UTC.
DATE_LINE = leg("ZZ", 1, "AKL 0005 +1300 HNL 0835 -1000", "320", "2", shifts="0A")
EVENING = [
    leg("ZZ", 7, "ZRH 2200 +0100 GVA 2245 +0100", "320", "1", MONDAY),
    leg("ZZ", 7, "GVA 2330 +0100 LIS 0110 +0000", "320", "1", MONDAY, sequence=2, shifts="01"),
]
LONG = [leg("ZZ", 7, "ZRH 0700 +0100 GVA 0745 +0100", "320", "1", MONDAY)]
LONG += [segment(LONG[0], "010", "XY 1"), leg("ZZ", 7, "GVA 0830 +0100 LIS 1010 +0000", "320", "1", MONDAY, sequence=2)]
LONG += [segment(LONG[2], "010", "XY 1"), leg("ZZ", 7, "LIS 1110 +0000 FNC 1250 +0000", "320", "1", MONDAY, sequence=3)]
OTHER = leg("ZZ", 99, WAY, "E90", "7")
ODD = leg("ZZ", 1, WAY, "320", "1", MONDAY, b40="0755", b62="    ")


def short(line: str) -> str:
    """What a plan may change of a leg's line: flight, variation, leg, period, days, times, date variations and type."""
    if line[0] == "4":
        return f"{line[5:13]} {line[30:33]}"
    return f"{line[5:13]} {line[14:35].rstrip()} {line[39:47]} {line[57:65]} {line[192:194]} {line[72:75]}"


# Of each case the legs, what is planned, the options, and the records of the new file. What is planned is a fleet and a shift by name.
CASES = {
    "a leg that departs later on a date": ([ONE, TWO], {"ZZ1": ("320", 10)}, (), [
        "00010101 25OCT2627NOV2612345 08000800 09500950 00 320", "00010201 30NOV2630NOV261 08100810 10001000 00 320",
        "00010301 01DEC2627MAR2712345 08000800 09500950 00 320", "00020101 25OCT2627MAR2712345 11001100 12501250 00 320",
    ]),
    "earlier on a day of the week, and another type": ([ONE, TWO], {"ZZ1": ("E90", -485)}, ("--whole-season",), [
        "00010101 25OCT2627MAR271 23552355 01450145 A0 E90", "00010201 25OCT2627MAR27 2345 08000800 09500950 00 320",
        "00020101 25OCT2627MAR2712345 11001100 12501250 00 320",
    ]),
    "a departure over midnight": ([NIGHT], {"ZZ1": ("320", 20)}, (), ["00010101 30NOV2630NOV261 00100010 01100110 11 320"]),
    "a departure at midnight": ([NIGHT], {"ZZ1": ("320", 10)}, (), ["00010101 30NOV2630NOV261 00000000 01000100 11 320"]),
    "an arrival on the day before": ([NIGHT], {"ZZ1": ("320", -60)}, (), ["00010101 30NOV2630NOV261 22502250 23502350 00 320"]),
    "a departure on the day before": ([MORNING], {"ZZ1": ("320", -20)}, (), ["00010101 30NOV2630NOV261 23502350 01300130 A  320"]),
    "a leg within its day": ([MORNING], {"ZZ1": ("320", 720)}, (), ["00010101 30NOV2630NOV261 12101210 13501350    320"]),
    "passengers' times that differ or are blank": ([ODD], {"ZZ1": ("320", -478)}, (), ["00010101 30NOV2630NOV261 23570002 0152     00 320"]),
    "a day that no date variation says": ([DATE_LINE], {"ZZ1": ("320", -720)}, (), [
        "00010101 25OCT2624NOV26 2 00050005 08350835 0A 320", "00010201 30NOV2630NOV261 12051205 20352035 0A 320",
        "00010301 08DEC2627MAR27 2 00050005 08350835 0A 320",
    ]),
    "such a day through the season": (
        [leg("ZZ", 1, "AKL 0005 +1300 HNL 0835 -1000", "320", "23", ("25OCT26", "00XXX00"), shifts="0A")],
        {"ZZ1": ("320", -720)}, ("--whole-season",), [
        "00010101 25OCT2600XXX00  3 00050005 08350835 0A 320", "00010201 26OCT2626MAR271 12051205 20352035 0A 320",
    ]),
    "a leg of another date": (THREE, {"ZZ7B": ("320", 25)}, (), [
        "00070101 25OCT2628NOV261234567 22302230 23152315 00 320", "00070102 25OCT2628NOV261234567 01300130 03100310 11 320",
        "00070201 29NOV2629NOV26      7 22302230 23152315 00 320", "00070202 29NOV2629NOV26      7 01550155 03350335 11 320",
        "00070301 30NOV2627MAR271234567 22302230 23152315 00 320", "00070302 30NOV2627MAR271234567 01300130 03100310 11 320",
    ]),
    "both legs of a flight, one over midnight in local time alone": (EVENING, {"ZZ7A": ("320", 50), "ZZ7B": ("E90", 50)}, (), [
        "00070101 30NOV2630NOV261 22502250 23352335 00 320", "00070102 30NOV2630NOV261 00200020 02000200 11 E90",
    ]),
    "a leg left out of a date": ([ONE, segment(ONE, "010", "XY 1"), LATER], {"ZZ1": ("-", 0)}, (), [
        "00010101 25OCT2627NOV2612345 08000800 09500950 00 320", "00010101 010",
        "00010201 01DEC2627MAR2712345 08000800 09500950 00 320", "00010201 010",
        "00010301 25OCT2627MAR27     67 08000800 09500950 00 320",
    ]),
    "a leg left out of a day of the week": ([ONE, LATER], {"ZZ1": ("-", 0)}, ("--whole-season",), [
        "00010101 25OCT2627MAR27 2345 08000800 09500950 00 320", "00010201 25OCT2627MAR27     67 08000800 09500950 00 320",
    ]),
    "a record of no date that is left": ([leg("ZZ", 1, WAY, "320", "1", MONDAY), TWO, LATER], {"ZZ1": ("-", 0)}, (), [
        "00020101 25OCT2627MAR2712345 11001100 12501250 00 320", "00010101 25OCT2627MAR27     67 08000800 09500950 00 320",
    ]),
    "one of two legs of a flight left out": (THREE, {"ZZ7A": ("-", 0), "ZZ7B": ("320", -30)}, ("--whole-season",), [
        "00070102 25OCT2627MAR271 01300130 03100310 11 320",
        "00070201 25OCT2627MAR27 23456 22302230 23152315 00 320", "00070202 25OCT2627MAR27 23456 01300130 03100310 11 320",
        "00070301 25OCT2627MAR27      7 22302230 23152315 00 320", "00070302 25OCT2627MAR27      7 01000100 02400240 11 320",
    ]),
    "the middle one of three legs left out": (LONG, {"ZZ7B": ("-", 0)}, (), [
        "00070101 30NOV2630NOV261 07000700 07450745 00 320", "00070101 010", "00070103 30NOV2630NOV261 11101110 12501250 00 320",
    ]),
    "all legs left out": ([leg("ZZ", 1, WAY, "320", "1", MONDAY), TWO], {"ZZ1": ("-", 0), "ZZ2": ("-", 0)}, ("--whole-season",), [
        "00020101 25OCT2627MAR27 2345 11001100 12501250 00 320",
    ]),
}  # fmt: skip
# The same of a week: of each flight and its days.
WEEKS = {
    "days of a week that differ by minutes": ([ONE], {("ZZ1", "12"): ("320", 10), ("ZZ1", "3"): ("E90", 10), ("ZZ1", "4"): ("-", 0)}, (), [
        "00010101 25OCT2627NOV2612345 08000800 09500950 00 320", "00010201 30NOV2601DEC2612 08100810 10001000 00 320",
        "00010301 02DEC2602DEC26  3 08100810 10001000 00 E90", "00010401 04DEC2627MAR2712345 08000800 09500950 00 320",
    ]),
    "the same by days of operation": ([ONE], {("ZZ1", "12"): ("320", 10), ("ZZ1", "3"): ("E90", 10), ("ZZ1", "4"): ("-", 0)}, ("--whole-season",), [
        "00010101 25OCT2627MAR2712 08100810 10001000 00 320", "00010201 25OCT2627MAR27  3 08100810 10001000 00 E90",
        "00010301 25OCT2627MAR27    5 08000800 09500950 00 320",
    ]),
    "a departure over the end of the week": ([leg("ZZ", 1, "ZRH 2350 +0100 LHR 0050 +0000", "320", "7", shifts="01")], {("ZZ1", "7"): ("320", 90)}, (), [
        "00010101 25OCT2629NOV26      7 23502350 00500050 01 320", "00010201 06DEC2606DEC26      7 01200120 02200220 11 320",
        "00010301 13DEC2627MAR27      7 23502350 00500050 01 320",
    ]),
    "a day left out of every second week": ([leg("ZZ", 1, WAY, "320", "136", ("30NOV26", "22MAR27"), b36="2")], {("ZZ1", "1"): ("-", 0)}, (), [
        "00010101 02DEC2605DEC26  3  6 08000800 09500950 00 320", "00010201 14DEC2622MAR271 3  6 08000800 09500950 00 320",
    ]),
}  # fmt: skip
# Of each record of a plan what is told of it.
REFUSED = {
    **{f"ZZ1,320,{it}": f"the shift of ZZ1 is {it}, it should be minutes from -720 to 720, as 10, 0 or -5" for it in (
        "+5", "010", "-0", "00", "721", "-721", "1000", "5.0", " 5", "", "x")},
    '"ZZ1",320,"1\n2"': "the shift of ZZ1 is 1\\x0a2, it should be minutes from -720 to 720, as 10, 0 or -5",
    "ZZ1,-,10": "the shift of ZZ1 is 10 beside the fleet -, it should be 0",
    "ZZ1,--,0": "the fleet of ZZ1 is --, it should be an aircraft type of three letters A to Z and digits",
    "ZZ1,320": "ZZ1,320, it should be 3 fields",
    "ZZ1,320,0,0": "ZZ1,320,0,0, it should be 3 fields",
}  # fmt: skip


@pytest.mark.parametrize("name", [*CASES, *WEEKS])
def test_records(name: str, scratch: Path) -> None:
    """A plan changes these records, their serial numbers go on, and the new file's plan as filed leaves it as it is."""
    legs, changes, words, wanted = CASES[name] if name in CASES else (WEEKS[name][0], every_day(WEEKS[name][1]), *WEEKS[name][2:])
    option = "--week" if name in WEEKS else "--date"
    fleets, shifts = {flight: it[0] for flight, it in changes.items()}, {flight: it[1] for flight, it in changes.items()}
    lines = planned(scratch, file_of(*legs, OTHER), fleets, words, option, shifts)
    assert [short(it) for it in lines if it[0] in "34"] == [*wanted, short(OTHER)]
    assert lines == numbered([f"{it[:194]}000000" for it in lines])
    assert not again(scratch, scratch / "new", option)


def again(folder: Path, new: Path, option: str) -> Optional[str]:
    """Returns how the plan as filed changes a file, or None."""
    made = call("tables", new, folder / "again", option, DATE, "--fleets", folder / "fleets")
    status, told = call("plan", new, folder / "again", folder / "same")
    if made[0] or status:
        return made[1] + told
    return None if (folder / "same").read_bytes() == new.read_bytes() else "the file is another"


def test_none_left(scratch: Path) -> None:
    """A carrier none of whose legs is flown, and what is told."""
    first = leg("ZZ", 1, WAY, "320", "1")
    lines = whole("ZZ", [first, segment(first, "010", "XY 1"), leg("ZZ", 2, "LHR 2350 +0000 ZRH 0240 +0100", "E90", "1", shifts="01")])
    new = planned(scratch, lines, {"ZZ1": "-", "ZZ2": "-"}, ("--whole-season",))
    assert call("plan", scratch / "season", scratch / "day", scratch / "new", "--whole-season")[1].startswith(NONE_LEFT)
    assert "".join(it[0] for it in new) == "1000020000" + "50000"
    assert new == numbered(new)
    assert call("tables", scratch / "new", scratch / "again", "--date", DATE, "--fleets", scratch / "fleets")[0] == 0
    assert not records(scratch / "again", "legs.csv")
    (scratch / "day" / "plan.csv").write_text("flight,fleet,shift\nZZ1,-,0\nZZ2,320,10\n", encoding="ascii")
    assert call("plan", scratch / "season", scratch / "day", scratch / "new")[1].startswith(TOLD)


OTHER_DAY = ", 1 of them on another day in UTC"


@pytest.mark.parametrize("mode, minutes, wanted, over", [
    ("L", 20, "00010101 30NOV2630NOV261 00100010 01100110 11 320", ""),
    ("U", 20, "00010101 30NOV2630NOV261 00100010 01100110 11 320", OTHER_DAY),
    ("L", 70, "00010101 30NOV2630NOV261 01000100 02000200 11 320", OTHER_DAY),
])  # fmt: skip
def test_midnight(mode: str, minutes: int, wanted: str, over: str, scratch: Path) -> None:
    """Midnight is that of the file's time mode, and the day that of the departure in UTC."""
    lines = planned(scratch, numbered([header(), carrier("ZZ", mode), NIGHT, trailer("ZZ")]), {}, shifts={"ZZ1": minutes})
    _, told = call("plan", scratch / "season", scratch / "day", scratch / "new")
    assert (short(lines[2]), told.splitlines()[1]) == (wanted, f"ssim: 1 legs depart at another time{over}")


NONE_LEFT = """\
ssim: 0 legs have another aircraft type, and 0 records are new
ssim: 2 legs are left out, and 2 records are taken away
ssim: onward flights (bytes 138 to 146), leg sequences and data of segments stay as filed: mend them where times or legs changed
"""
TOLD = """\
ssim: 1 legs have another aircraft type, and 3 records are new
ssim: 1 legs depart at another time, 1 of them on another day in UTC
ssim: 1 legs are left out, and 0 records are taken away
ssim: configurations (bytes 173 to 192), classes (76 to 100) and onward flights (138 to 146) stay as filed: mend them where types changed
ssim: onward flights (bytes 138 to 146), leg sequences and data of segments stay as filed: mend them where times or legs changed
"""


@pytest.mark.parametrize("row", REFUSED)
def test_refused(row: str, scratch: Path) -> None:
    """A record that can't be written back: one line, and no new file."""
    planned(scratch, file_of(ONE, TWO), {}, shifts={})
    (scratch / "new").unlink()
    (scratch / "day" / "plan.csv").write_text(f"flight,fleet,shift\n{row}\nZZ2,320,0\n", encoding="ascii")
    before = standing(scratch)
    status, told = call("plan", scratch / "season", scratch / "day", scratch / "new")
    assert (status, told.replace(f"{scratch}/", "")) == (6, f"ssim: day/plan.csv record 2: {REFUSED[row]}\n")
    assert standing(scratch) == before


def test_twice(scratch: Path) -> None:
    """Shifts aren't written a second time."""
    lines = planned(scratch, file_of(leg("ZZ", 1, WAY, "320", "1", MONDAY)), {}, shifts={"ZZ1": 10})
    assert short(lines[2]) == "00010101 30NOV2630NOV261 08100810 10001000 00 320"
    status, told = call("plan", scratch / "new", scratch / "day", scratch / "newer")
    line = "ZZ1 is ZRH 07:10 LHR 10:00 by line 3 of new, it should be ZRH 07:00 LHR 09:50 as in legs.csv, in the file that the tables are of"
    assert (status, told.replace(f"{scratch}/", "")) == (6, f"ssim: day/names.csv record 2: {line}\n")
    assert not (scratch / "newer").exists()


SEASON = carrier("ZZ", "L", ("27OCT26", "27MAR27"))
FIRST = leg("ZZ", 1, "AKL 0005 +1300 HNL 0835 -1000", "320", period=("27OCT26", "00XXX00"), shifts="0A")
THEN = leg("ZZ", 1, "HNL 0900 -1000 LAX 1600 -0800", "320", sequence=2, shifts="77")


@pytest.mark.parametrize("legs, line", [
    ([FIRST], "line 3: the period would be 26OCT26 to 26MAR27 by the plan (bytes 15 to 28), it should be within 27OCT26 to 27MAR27 as in line 2"),
    ([FIRST, THEN], "line 4: departure's date variation would be 8 by the plan (byte 193), it should be 7 at most"),
], ids=["dates before the season", "more days than date variations"])  # fmt: skip
def test_no_such_day(legs: Sequence[str], line: str, scratch: Path) -> None:
    """Days that a file can't say: one line, and no new file."""
    said = planned(scratch, numbered([header(), SEASON, *legs, trailer("ZZ")]), {}, ("--whole-season",), shifts={"ZZ1": -720, "ZZ1A": -720})
    assert said[-1].replace(f"{scratch}/", "") == f"ssim: season {line}\n"
    assert not (scratch / "new").exists()


# Of each leg's line and date of operation when it departs, its way, its block and its type; or what is told.
World = Any


def weeks_of(folder: Path, file: Path, first: datetime.date, fleets: Path, wanted: Sequence[int] = (-7, 0, 7)) -> World:
    """Returns what departs in weeks around a day: of each leg's line and date of operation its day and minute in UTC, its way, its
    block and its type; or what is told, where the file doesn't read."""
    found = {}
    for shift in wanted:
        day = first + datetime.timedelta(shift)
        status, told = call("tables", file, folder / "weeks", "--week", day.isoformat(), "--fleets", fleets)
        if status:
            return told
        rows = zip(*(records(folder / "weeks", it) for it in ("names.csv", "legs.csv", "plan.csv")))
        for name, flown, plan in (tuple(it.split(",") for it in row) for row in rows):
            _, at, origin, dep, destination, arr = flown
            departs, arrives = (60 * int(it[:2]) + int(it[3:]) for it in (dep, arr))
            when = (day.toordinal() + int(at) - 1) * DAY + departs
            found[int(name[6]), datetime.date.fromisoformat(name[7])] = when, origin, destination, (arrives - departs) % DAY, plan[1]
    return found


# Of each leg's line and its date of operation, or the day of the week of that, its fleet and its shift.
Planned = Dict[Tuple[int, Any], Tuple[str, int]]


class Drawn:
    """A plan that is drawn for the tables of a folder. Where a draw is `calm` each leg departs on its day, and all are flown."""

    def __init__(self, chance: random.Random, day: Path, types: Sequence[str], is_calm: bool) -> None:
        self.names = [it.split(",") for it in records(day, "names.csv")]
        departs = [it.split(",")[-3] for it in records(day, "legs.csv")]
        filed = [it.split(",")[1] for it in records(day, "plan.csv")]
        self.fleets, self.shifts = {}, {}
        for (name, *_), dep, kind in zip(self.names, departs, filed):
            minute, draw = 60 * int(dep[:2]) + int(dep[3:]), chance.random()
            self.fleets[name] = "-" if draw < 0.1 and not is_calm else chance.choice(types) if draw < 0.3 else kind
            if self.fleets[name] != "-" and chance.random() < 0.4:
                shift = chance.choice((chance.randint(-720, 720), chance.randint(-30, 30)))
                self.shifts[name] = shift if not is_calm or 0 <= minute + shift < DAY else 0
        (day / "plan.csv").write_text(plan_text(self.fleets, self.shifts), encoding="ascii")

    def planned(self, is_whole_season: bool) -> Planned:
        """Returns the fleet and the shift by a leg's line and its date of operation, or the day of the week of that."""
        dates = [(int(it[6]), datetime.date.fromisoformat(it[7])) for it in self.names]
        keys = [(line, date.weekday() if is_whole_season else date) for line, date in dates]
        return {key: (self.fleets[it[0]], self.shifts.get(it[0], 0)) for key, it in zip(keys, self.names)}


def departing(world: World, planned: Optional[Planned] = None, is_whole_season: bool = False) -> List[Tuple[Any, ...]]:
    """Returns the legs of a world in order, by a plan where one is given."""
    found = []
    for (line, date), (when, origin, destination, block, kind) in world.items():
        fleet, shift = (planned or {}).get((line, date.weekday() if is_whole_season else date), (kind, 0))
        if fleet != "-":
            found.append((when + shift, origin, destination, block, fleet))
    return sorted(found)


def between(legs: Sequence[Tuple[Any, ...]], first: datetime.date, last: datetime.date) -> List[Tuple[Any, ...]]:
    """Returns the legs that depart on some days."""
    return [it for it in legs if first.toordinal() * DAY <= it[0] < last.toordinal() * DAY]


def times_by(folder: Path, drawn: Optional[Any] = None) -> List[Tuple[Any, ...]]:
    """Returns the legs of a folder's tables in order of departure, by a plan where one is given and as far as they depart on the days of
    the tables then: day and minute of departure, way, block and fleet."""
    found = []
    legs, plan = (records(folder, it) for it in ("legs.csv", "plan.csv"))
    count = 7 if (folder / "legs.csv").read_text(encoding="ascii").startswith("flight,day") else 1
    for (name, *at, origin, dep, destination, arr), (_, kind, *_) in zip(*((row.split(",") for row in it) for it in (legs, plan))):
        departs, arrives = (60 * int(it[:2]) + int(it[3:]) for it in (dep, arr))
        when = DAY * int(at[0] if at else 1) + departs + (drawn.shifts.get(name, 0) if drawn else 0)
        if kind != "-" and DAY <= when < DAY * (count + 1):
            found.append((when, origin, destination, (arrives - departs) % DAY, kind))
    return sorted(found)


@pytest.mark.parametrize("draw", range(DRAWS))
def test_draw(draw: int, scratch: Path) -> None:
    """A plan of the example that is drawn: all legs of three weeks depart as planned, and on all other dates as filed."""
    types, fleets, chance = ["223", "320", "333", "E90"], scratch / "fleets", random.Random(draw)
    fleets.write_text("fleet,aircraft,turn\n" + "".join(f"{it},99,30\n" for it in types), encoding="ascii")
    file, day, first = EXAMPLE / "season.ssim", scratch / "day", datetime.date(2026, 11, chance.randrange(20, 30))
    is_calm, words, option = draw % 2 > 0, ["--whole-season"] if draw % 4 > 1 else [], ("--date", "--week")[draw % 8 > 3]
    call("tables", file, day, option, first.isoformat(), "--fleets", fleets)
    drawn = Drawn(chance, day, types, is_calm)
    status, told = call("plan", file, day, scratch / "new", *words)
    assert not status, told
    before, after = weeks_of(scratch, file, first, fleets, (-14, -7, 0, 7, 14)), weeks_of(scratch, scratch / "new", first, fleets)
    ends = first - datetime.timedelta(7), first + datetime.timedelta(14)
    wanted = between(departing(before, drawn.planned(bool(words)), bool(words)), *ends)
    assert (after if isinstance(after, str) else departing(after)) == wanted
    assert not again(scratch, scratch / "new", option)
    if is_calm:
        assert tables_again(scratch, option, first, fleets) == settled(day, drawn)


def settled(day: Path, drawn: Drawn) -> Tuple[Dict[str, Tuple[object, ...]], List[str]]:
    """Returns the legs of a folder by name, each at its minute and with its fleet by the plan, and the through pairs."""
    found = {}
    for name, *at, origin, dep, destination, arr in (it.split(",") for it in records(day, "legs.csv")):
        times = [(60 * int(it[:2]) + int(it[3:]) + drawn.shifts.get(name, 0)) % DAY for it in (dep, arr)]
        found[name] = *at, origin, destination, *times, drawn.fleets[name]
    return found, sorted(records(day, "throughs.csv"))


def tables_again(folder: Path, option: str, first: datetime.date, fleets: Path) -> Any:
    """Returns the same of the new file's tables."""
    call("tables", folder / "new", folder / "again", option, first.isoformat(), "--fleets", fleets)
    found, plan = {}, dict(it.split(",") for it in records(folder / "again", "plan.csv"))
    for name, *at, origin, dep, destination, arr in (it.split(",") for it in records(folder / "again", "legs.csv")):
        found[name] = *at, origin, destination, *(60 * int(it[:2]) + int(it[3:]) for it in (dep, arr)), plan[name]
    return found, sorted(records(folder / "again", "throughs.csv"))
