"""Plans written back: the records that they change, and that nothing else changes on any date."""

import datetime
import random
from pathlib import Path
from typing import Dict, List, Mapping, Optional, Sequence, Tuple, TypeVar, Union

import pytest
from schedule_lines import ZEROS, carrier, header, leg, numbered, segment, text, trailer
from ssim_tests.trying import EXAMPLE, call, records, standing

DATE = "2026-11-30"
WAY = "ZRH 0800 +0100 LHR 0950 +0000"
# Plans that are drawn, each by a number.
DRAWS = 12
# Days before and after a planned date whose tables are compared.
NEAR = (-14, -8, -7, -2, -1, 0, 1, 2, 6, 7, 8, 14, 21, 28)


def short(line: str) -> str:
    """What a plan may change of a leg's line: flight, variation, leg, period, days and type; and of segment data the flight."""
    return line[5:13] + line[127] + " " + line[14:35].rstrip() + " " + line[72:75] if line[0] == "3" else f"{line[5:13]}{line[27]} {line[30:33]}"


def plan_text(fleets: Mapping[str, str], shifts: Optional[Mapping[str, int]] = None) -> str:
    """A plan of fleets by flight, and of shifts, where they are given."""
    if shifts is None:
        return "flight,fleet\n" + "".join(f"{it},{to}\n" for it, to in fleets.items())
    return "flight,fleet,shift\n" + "".join(f"{it},{to},{shifts.get(it, 0)}\n" for it, to in fleets.items())


def planned(
    folder: Path,
    lines: Sequence[str],
    changes: Mapping[str, str],
    words: Sequence[str] = (),
    option: str = "--date",
    shifts: Optional[Mapping[str, int]] = None,
) -> List[str]:
    """Writes a plan of a date or a week with some fleets changed, and returns the lines of the new file."""
    (folder / "season").write_bytes(text(lines).encode("ascii"))
    types = {it[72:75] for it in lines if it[0] == "3"} | {*changes.values()} - {"-"}
    fleets = "".join(f"{it},9,30\n" for it in sorted(types) if len(it) == 3)
    (folder / "fleets").write_text(f"fleet,aircraft,turn\n{fleets}", encoding="ascii")
    made = call("tables", folder / "season", folder / "day", option, DATE, "--fleets", folder / "fleets")
    rows = dict(it.split(",") for it in records(folder / "day", "plan.csv"))
    rows.update(changes)
    (folder / "day" / "plan.csv").write_text(plan_text(rows, shifts), encoding="ascii")
    status, told = call("plan", folder / "season", folder / "day", folder / "new", *words)
    if made[0] or status:
        return [made[1], told]
    return (folder / "new").read_bytes().decode("ascii").split("\r\n")[:-1]


def body(lines: Sequence[str]) -> List[str]:
    """What a plan may change of all legs."""
    return [short(it) for it in lines if it[0] in "34"]


def file_of(*legs: str) -> List[str]:
    """A file of these legs."""
    return numbered([header(), carrier("ZZ"), *legs, trailer("ZZ")])


ONE = leg("ZZ", 1, WAY, "320", "12345")
TWO = leg("ZZ", 2, "LHR 1100 +0000 ZRH 1250 +0100", "320", "12345", variation=1)
LATER = leg("ZZ", 1, WAY, "320", "67", variation=2)
FORTNIGHT = leg("ZZ", 1, WAY, "320", "123", period=("27OCT26", "22MAR27"), b36="2")
THREE = [leg("ZZ", 7, "ZRH 2230 +0100 GVA 2315 +0100", "320"), leg("ZZ", 7, "GVA 0130 +0100 LIS 0310 +0000", "320", sequence=2, shifts="11")]
Case = Tuple[List[str], Dict[str, str], Tuple[str, ...], List[str]]
Planned = TypeVar("Planned")
# Of each case the legs, the fleets of the plan, the options, and the records of the new file.
CASES: Dict[str, Case] = {
    "by date": ([ONE, TWO, LATER], {"ZZ1": "E90"}, (), [
        "00010101  25OCT2627NOV2612345 320", "00010201  30NOV2630NOV261 E90", "00010301  01DEC2627MAR2712345 320",
        "00020101  25OCT2627MAR2712345 320", "00010401  25OCT2627MAR27     67 320",
    ]),
    "by day of operation": ([ONE, TWO, LATER], {"ZZ1": "E90"}, ("--whole-season",), [
        "00010101  25OCT2627MAR271 E90", "00010201  25OCT2627MAR27 2345 320", "00020101  25OCT2627MAR2712345 320",
        "00010301  25OCT2627MAR27     67 320",
    ]),
    "a record of that date alone": (
        [leg("ZZ", 1, WAY, "320", "1", ("30NOV26", "30NOV26"), 7)], {"ZZ1": "E90"}, (), ["00010701  30NOV2630NOV261 E90"],
    ),
    "a record of that day of the week alone": (
        [leg("ZZ", 1, WAY, "320", "1", variation=7)], {"ZZ1": "E90"}, ("--whole-season",), ["00010701  25OCT2627MAR271 E90"],
    ),
    "the first date of a period": ([leg("ZZ", 1, WAY, "320", "14", ("30NOV26", "00XXX00"))], {"ZZ1": "E90"}, (), [
        "00010101  30NOV2630NOV261 E90", "00010201  03DEC2600XXX001  4 320",
    ]),
    "the last date of a period": ([leg("ZZ", 1, WAY, "320", "14", ("22NOV26", "02DEC26"))], {"ZZ1": "E90"}, (), [
        "00010101  22NOV2626NOV261  4 320", "00010201  30NOV2630NOV261 E90",
    ]),
    "every second week": ([FORTNIGHT], {"ZZ1": "E90"}, (), [
        "00010101  27OCT2625NOV26123 320", "00010201  30NOV2630NOV261 E90", "00010301  08DEC2622MAR27123 320",
    ]),
    "the rest of a second week": ([leg("ZZ", 1, WAY, "320", "136", ("30NOV26", "22MAR27"), b36="2")], {"ZZ1": "E90"}, (), [
        "00010101  30NOV2630NOV261 E90", "00010201  02DEC2605DEC26  3  6 320", "00010301  14DEC2622MAR271 3  6 320",
    ]),
    "two legs of one flight, of two dates": (THREE, {"ZZ7A": "E90", "ZZ7B": "E90"}, (), [
        "00070101  25OCT2628NOV261234567 320", "00070102  25OCT2628NOV261234567 320",
        "00070201  29NOV2629NOV26      7 320", "00070202  29NOV2629NOV26      7 E90",
        "00070301  30NOV2630NOV261 E90", "00070302  30NOV2630NOV261 320",
        "00070401  01DEC2627MAR271234567 320", "00070402  01DEC2627MAR271234567 320",
    ]),
    "segment data goes along": ([ONE, segment(ONE, "010", "XY 1")], {"ZZ1": "E90"}, ("--whole-season",), [
        "00010101  25OCT2627MAR271 E90", "00010101  010", "00010201  25OCT2627MAR27 2345 320", "00010201  010",
    ]),
    "nothing": ([ONE, TWO, LATER], {}, (), [short(ONE), short(TWO), short(LATER)]),
}  # fmt: skip


def every_day(changes: Mapping[Tuple[str, str], Planned]) -> Dict[str, Planned]:
    """What is planned for names of a week, each of which ends with its days."""
    return {f"{name}D{day}": fleet for (name, days), fleet in changes.items() for day in days}


# The same of a week: of each flight and its days the fleet of the plan.
WEEKS = {
    "days of a week alike": ([ONE, TWO, LATER], {("ZZ1", "12345"): "E90"}, (), [
        "00010101  25OCT2627NOV2612345 320", "00010201  30NOV2604DEC2612345 E90", "00010301  07DEC2627MAR2712345 320",
        "00020101  25OCT2627MAR2712345 320", "00010401  25OCT2627MAR27     67 320",
    ]),
    "days of a week that differ": ([ONE], {("ZZ1", "124"): "E90", ("ZZ1", "3"): "333"}, (), [
        "00010101  25OCT2627NOV2612345 320", "00010201  30NOV2603DEC2612 4 E90", "00010301  02DEC2602DEC26  3 333",
        "00010401  04DEC2627MAR2712345 320",
    ]),
    "days between that stay": ([ONE], {("ZZ1", "15"): "E90"}, (), [
        "00010101  25OCT2627NOV2612345 320", "00010201  30NOV2604DEC261   5 E90", "00010301  01DEC2603DEC26 234 320",
        "00010401  07DEC2627MAR2712345 320",
    ]),
    "a week by days of operation": ([ONE, LATER], {("ZZ1", "12"): "E90", ("ZZ1", "4"): "333", ("ZZ1", "7"): "E90"}, ("--whole-season",), [
        "00010101  25OCT2627MAR2712 E90", "00010201  25OCT2627MAR27  3 5 320", "00010301  25OCT2627MAR27   4 333",
        "00010401  25OCT2627MAR27     6 320", "00010501  25OCT2627MAR27      7 E90",
    ]),
    "a record of that week alone": ([leg("ZZ", 1, WAY, "320", "123", ("30NOV26", "06DEC26"), 7)], {("ZZ1", "13"): "E90"}, (), [
        "00010101  30NOV2602DEC261 3 E90", "00010201  30NOV2601DEC26 2 320",
    ]),
    "a week of every second one": ([leg("ZZ", 1, WAY, "320", "136", ("30NOV26", "22MAR27"), b36="2")], {("ZZ1", "13"): "E90"}, (), [
        "00010101  30NOV2602DEC261 3 E90", "00010201  05DEC2605DEC26     6 320", "00010301  14DEC2622MAR271 3  6 320",
    ]),
    "a week of two legs, of eight dates": (THREE, {("ZZ7A", "1234567"): "E90", ("ZZ7B", "1234567"): "E90"}, (), [
        "00070101  25OCT2628NOV261234567 320", "00070102  25OCT2628NOV261234567 320",
        "00070201  29NOV2629NOV26      7 320", "00070202  29NOV2629NOV26      7 E90",
        "00070301  30NOV2605DEC26123456 E90", "00070302  30NOV2605DEC26123456 E90",
        "00070401  06DEC2606DEC26      7 E90", "00070402  06DEC2606DEC26      7 320",
        "00070501  07DEC2627MAR271234567 320", "00070502  07DEC2627MAR271234567 320",
    ]),
    "a week of two legs by days of operation": (THREE, {("ZZ7A", "1234567"): "E90", ("ZZ7B", "1234567"): "E90"}, ("--whole-season",), [
        "00070101  25OCT2627MAR271234567 E90", "00070102  25OCT2627MAR271234567 E90",
    ]),
}  # fmt: skip


@pytest.mark.parametrize("name", [*CASES, *WEEKS])
def test_records(name: str, scratch: Path) -> None:
    """A plan changes these records, and their serial numbers go on."""
    legs, changes, words, wanted = CASES[name] if name in CASES else (WEEKS[name][0], every_day(WEEKS[name][1]), *WEEKS[name][2:])
    lines = file_of(*legs, leg("ZZ", 99, WAY, "E90", "7"))
    lines = planned(scratch, lines, changes, words, "--week" if name in WEEKS else "--date")
    assert body(lines) == [*wanted, "00990101  25OCT2627MAR27      7 E90"]
    assert lines == numbered([f"{it[:194]}000000" for it in lines])


def test_blocks(scratch: Path) -> None:
    """Where zeros fill the last block of five before a trailer they fill it again. A plan as filed leaves the file as it is."""
    lines = numbered([header(), carrier("ZZ"), ONE, leg("ZZ", 99, WAY, "E90", "7"), ZEROS, trailer("ZZ"), *[ZEROS] * 4])
    assert "".join(it[0] for it in planned(scratch, lines, {"ZZ1": "E90"})) == "12" + "3" * 4 + "0" * 4 + "50000"
    assert planned(scratch, lines, {"ZZ1": "320"}) == lines


@pytest.mark.parametrize("is_last", [True, False])
@pytest.mark.parametrize("end", ["\n", "\r\n"], ids=["LF", "CR LF"])
def test_ends(end: str, is_last: bool, scratch: Path) -> None:
    """Lines end as they did, and so does the last one."""
    lines, last = file_of(ONE, TWO, leg("ZZ", 99, WAY, "E90", "7")), end if is_last else ""
    new = planned(scratch, lines, {"ZZ1": "E90"})
    (scratch / "season").write_bytes((end.join(lines) + last).encode("ascii"))
    assert call("plan", scratch / "season", scratch / "day", scratch / "new")[0] == 0
    assert (scratch / "new").read_bytes().decode("ascii") == end.join(new) + last


@pytest.mark.parametrize("name", ["on", "anew"])
def test_carriers(name: str, scratch: Path) -> None:
    """A second carrier record goes on with serial numbers as it did, from the first one's on or anew, and is changed alone."""
    first, second = carrier("ZZ", "L", ("25OCT26", "29NOV26")), carrier("ZZ", "L", ("30NOV26", "27MAR27"))
    legs = [leg("ZZ", 1, WAY, "320", "12345", ("30NOV26", "27MAR27")), TWO, leg("ZZ", 99, WAY, "E90", "7")]
    lines = numbered([header(), first, ONE, trailer("ZZ", "C"), second, *legs, trailer("ZZ")])
    anew = [*lines[:4], *numbered([header(), second, *legs, trailer("ZZ")])[1:]]
    new = planned(scratch, lines if name == "on" else anew, {"ZZ1": "E90"})
    assert [int(it[194:]) for it in new] == [*range(1, 5), *(range(5, 11) if name == "on" else range(2, 8))]
    kinds = [short(it) for it in new if it[:9] == "3 ZZ 0001"]
    assert kinds == [short(ONE), "00010101  30NOV2630NOV261 E90", "00010201  01DEC2627MAR2712345 320"]


def test_hundreds(scratch: Path) -> None:
    """More than 99 variations of a flight: the hundreds stand in byte 128 as a letter."""
    starts = [datetime.date(2026, 10, 26) + datetime.timedelta(it) for it in range(150)]
    dates = [it.strftime("%d%b%y").upper() for it in starts]
    legs = [leg("ZZ", 1, WAY, "320", period=(it, it), variation=at, b128="A" if at > 99 else " ") for at, it in enumerate(dates, 1)]
    long = leg("ZZ", 1, WAY, "E90", "1", period=("26OCT26", "00XXX00"), variation=151, b128="A")
    new = planned(scratch, file_of(*legs, long), {"N1": "320"})
    assert [it[127] + it[9:11] for it in new if it[0] == "3"] == [(" A"[it // 100]) + f"{it % 100:02}" for it in range(1, 154)]


def tables_on(file: Path, folder: Path, day: datetime.date, fleets: Path) -> Union[str, List[str]]:
    """Returns the legs and the plan of a day as texts, without their names."""
    status, told = call("tables", file, folder, "--date", day.isoformat(), "--fleets", fleets)
    if status:
        return told
    legs, plan = records(folder, "legs.csv"), records(folder, "plan.csv")
    return sorted(f"{leg.split(',', 1)[1]},{fleet.split(',')[1]}" for leg, fleet in zip(legs, plan))


@pytest.mark.parametrize("draw", range(DRAWS))
def test_draw(draw: int, scratch: Path) -> None:
    """A plan of the example that is drawn: the tables of the new file have it again, and all other dates stay. All flights of the example
    go again after two weeks."""
    types, fleets, chance = ["223", "320", "333", "E90"], scratch / "fleets", random.Random(draw)
    fleets.write_text("fleet,aircraft,turn\n" + "".join(f"{it},99,30\n" for it in types), encoding="ascii")
    first, words = datetime.date(2026, 11, chance.randrange(20, 30)), ["--whole-season"] if draw % 2 else []
    option, count = ("--week", 7) if draw % 4 > 1 else ("--date", 1)
    file, day, new = EXAMPLE / "season.ssim", scratch / "day", scratch / "new"
    call("tables", file, day, option, first.isoformat(), "--fleets", fleets)
    filed = [it.split(",") for it in records(day, "plan.csv")]
    rows = [(it, chance.choice(types) if chance.random() < 0.4 else kind) for it, kind in filed]
    plan = "flight,fleet\n" + "".join(f"{it},{kind}\n" for it, kind in rows)
    (day / "plan.csv").write_text(plan, encoding="ascii")
    status, told = call("plan", file, day, new, *words)
    assert not status, told
    for date in (first, *([first + datetime.timedelta(14)] if words else [])):
        status, told = call("tables", new, scratch / "again", option, date.isoformat(), "--fleets", fleets)
        assert not status, told
        assert (scratch / "again" / "plan.csv").read_text(encoding="ascii") == plan
    assert not others(scratch, file, new, first, count, bool(words), fleets)


def others(folder: Path, file: Path, new: Path, first: datetime.date, count: int, is_whole_season: bool, fleets: Path) -> Optional[str]:
    """Returns on which near date the legs of two files differ that may not, or None."""
    for shift in NEAR:
        if shift in range(count) or is_whole_season and shift % 7 < count:
            continue
        day = first + datetime.timedelta(shift)
        before, after = (tables_on(it, folder / "other", day, fleets) for it in (file, new))
        if before != after:
            return f"{day}: {sorted(set(before) ^ set(after))}"
    return None


# Of each fault the file of DIR, the line that tells it, and what is put there, or None.
REFUSED = {
    "another order": ("plan.csv", "plan.csv record 2: the flight is ZZ2, it should be ZZ1 as in names.csv", "flight,fleet\nZZ2,320\nZZ1,320\n"),
    "one flight less": ("plan.csv", "plan.csv has 1 flights, it should have the 2 of names.csv", "flight,fleet\nZZ1,320\n"),
    "no aircraft type": (
        "plan.csv", "plan.csv record 3: the fleet of ZZ2 is A320, it should be an aircraft type of three letters A to Z and digits",
        "flight,fleet\nZZ1,320\nZZ2,A320\n",
    ),
    "an empty plan": ("plan.csv", "plan.csv is empty, it should begin with flight,fleet or flight,fleet,shift", ""),
    "names of another file": (
        "names.csv", "names.csv record 2: ZZ 1  01 1 on 2026-11-30 isn't the leg of line 4 of season, it should be the file that the tables are of",
        "flight,airline,number,suffix,variation,leg,line,operates\nZZ1,ZZ,1,,01,1,4,2026-11-30\nZZ2,ZZ,2,,01,1,4,2026-11-30\n",
    ),
    "no names": ("names.csv", "names.csv can't be read: No such file or directory", None),
}  # fmt: skip


@pytest.mark.parametrize("name", REFUSED)
def test_refused(name: str, scratch: Path) -> None:
    """Files of DIR that don't belong together: one line, and no new file."""
    file, line, put = REFUSED[name]
    planned(scratch, file_of(ONE, TWO), {})
    (scratch / "new").unlink()
    if put is None:
        (scratch / "day" / file).unlink()
    else:
        (scratch / "day" / file).write_text(put, encoding="ascii")
        # Without the sums of the files as they were made.
        (scratch / "day" / "made.csv").unlink()
    before = standing(scratch)
    status, told = call("plan", scratch / "season", scratch / "day", scratch / "new")
    assert (status, told.replace(f"{scratch}/", "")) == (7 if put is None else 6, f"ssim: day/{line}\n")
    assert standing(scratch) == before


def test_wrong_word() -> None:
    """An option of the other command is none of this one."""
    status, told = call("plan", "a", "b", "c", "--week", DATE)
    assert (status, told.splitlines()[0]) == (2, "ssim: --week is no option")
