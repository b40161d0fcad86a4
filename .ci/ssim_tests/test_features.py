"""Each feature of `tables` as a small schedule, with the records that a person would write."""

from pathlib import Path
from typing import Any, Dict, List, Mapping, Optional, Sequence, Tuple

import pytest
from schedule_lines import carrier, header, leg, numbered, segment, text, trailer, whole
from ssim_tests.trying import call, records, standing

# A Monday.
DATE = "2026-11-30"
MONDAY = ("30NOV26", "30NOV26")
SUNDAY = ("29NOV26", "29NOV26")
TUESDAY = ("01DEC26", "01DEC26")


def out(number: int = 1, way: str = "ZRH 0800 +0100 LHR 0950 +0000", kind: str = "320", airline: str = "ZZ", **more: Any) -> str:
    """A leg from home."""
    return leg(airline, number, way, kind, **more)


def back(number: int = 2, way: str = "LHR 1100 +0000 ZRH 1250 +0100", kind: str = "320", **more: Any) -> str:
    """A leg back home."""
    return leg("ZZ", number, way, kind, **more)


def with_segment(of: str, element: str) -> List[str]:
    """A leg with its segment data."""
    return [of, segment(of, element, "XY 0018")]


LOCAL = [out(), back()]
# Of each case: its legs, the time mode, the options, and the records of tables by file.
TABLES: Dict[str, Tuple[List[str], str, str, Dict[str, List[str]]]] = {
    "local time": (LOCAL, "L", "", {
        "legs.csv": ["ZZ1,ZRH,07:00,LHR,09:50", "ZZ2,LHR,11:00,ZRH,11:50"],
        "stations.csv": ["LHR,0,no", "ZRH,0,no"],
        "fleets.csv": ["320,1,30"],
        "costs.csv": ["ZZ1,320,0", "ZZ2,320,0"],
        "throughs.csv": [],
        "plan.csv": ["ZZ1,320", "ZZ2,320"],
        "names.csv": [f"ZZ1,ZZ,1,,01,1,3,{DATE}", f"ZZ2,ZZ,2,,01,1,4,{DATE}"],
    }),
    "UTC": (LOCAL, "U", "", {"legs.csv": ["ZZ1,ZRH,08:00,LHR,09:50", "ZZ2,LHR,11:00,ZRH,12:50"]}),
    "a Tuesday's leg that departs on the Monday in UTC": ([out(1, "ZRH 0030 +0100 LHR 0220 +0000", period=TUESDAY)], "L", "", {
        "legs.csv": ["ZZ1,ZRH,23:30,LHR,02:20"], "names.csv": ["ZZ1,ZZ,1,,01,1,3,2026-12-01"],
    }),
    "a Monday's leg that departs on the Sunday in UTC": ([out(1, "ZRH 0030 +0100 LHR 0220 +0000", period=MONDAY)], "L", "", {"legs.csv": []}),
    "a Sunday's leg that departs on the Monday in UTC": ([out(1, "YYT 2330 -0330 ZRH 1030 +0100", period=SUNDAY, shifts="01")], "L", "", {
        "legs.csv": ["ZZ1,YYT,03:00,ZRH,09:30"], "names.csv": ["ZZ1,ZZ,1,,01,1,3,2026-11-29"],
    }),
    "variations of hours and minutes": ([out(1, "ZRH 1300 +0100 YYT 1530 -0330"), out(2, "KTM 1310 +0545 ZRH 1740 +0100")], "L", "", {
        "legs.csv": ["ZZ2,KTM,07:25,ZRH,16:40", "ZZ1,ZRH,12:00,YYT,19:00"],
    }),
    "over midnight in local time and in UTC": ([out(1, "ZRH 2155 +0100 KTM 1110 +0545", shifts="01")], "L", "", {"legs.csv": ["ZZ1,ZRH,20:55,KTM,05:25"]}),
    "over midnight in local time alone": ([out(1, "IST 2330 +0300 ADD 0330 +0300", shifts="01")], "L", "", {"legs.csv": ["ZZ1,IST,20:30,ADD,00:30"]}),
    "a leg that departs on the day after its date": (
        [out(1, "LIS 0010 +0000 FNC 0150 +0000", period=SUNDAY, shifts="11")], "L", "", {"legs.csv": ["ZZ1,LIS,00:10,FNC,01:50"]},
    ),
    "a leg that arrives on the day before, over the date line": (
        [out(1, "AKL 0900 +1300 HNL 1730 -1000", period=TUESDAY, shifts="0A")], "L", "", {"legs.csv": ["ZZ1,AKL,20:00,HNL,03:30"]},
    ),
    "2400 and blanks for no shift": ([out(1, "ZRH 2245 +0000 LHR 2400 +0000", shifts="  ")], "L", "", {"legs.csv": ["ZZ1,ZRH,22:45,LHR,00:00"]}),
    "days of operation": ([out(days="234567"), back(days="1")], "L", "", {"legs.csv": ["ZZ2,LHR,11:00,ZRH,11:50"]}),
    "periods": ([out(period=("25OCT26", "29NOV26")), back(period=("30NOV26", "00XXX00")), out(3, period=("01DEC26", "00XXX00"))], "L", "", {
        "legs.csv": ["ZZ2,LHR,11:00,ZRH,11:50"],
    }),
    "every second week, of weeks that begin as the period does": (
        [out(b36="2", period=("26OCT26", "22MAR27")), back(b36="2", period=("02NOV26", "22MAR27")), out(3, b36="2", period=("27OCT26", "22MAR27"))],
        "L", "", {"legs.csv": ["ZZ3,ZRH,07:00,LHR,09:50", "ZZ2,LHR,11:00,ZRH,11:50"]},
    ),
    "a flight of three legs": (
        [
            out(7, "ZRH 0700 +0100 GVA 0745 +0100"), out(7, "GVA 0830 +0100 LIS 1010 +0000", sequence=2),
            out(7, "LIS 1110 +0000 FNC 1250 +0000", sequence=3), out(8, "FNC 1400 +0000 LIS 1540 +0000"),
        ], "L", "--through-value 25",
        {
            "legs.csv": ["ZZ7A,ZRH,06:00,GVA,06:45", "ZZ7B,GVA,07:30,LIS,10:10", "ZZ7C,LIS,11:10,FNC,12:50", "ZZ8,FNC,14:00,LIS,15:40"],
            "throughs.csv": ["ZZ7A,ZZ7B,25", "ZZ7B,ZZ7C,25"],
        },
    ),
    "a flight that is cut by midnight in UTC": (
        [out(7, "ZRH 2230 +0100 GVA 2315 +0100"), out(7, "GVA 0130 +0100 LIS 0310 +0000", sequence=2, shifts="11")], "L", "",
        {
            "legs.csv": ["ZZ7B,GVA,00:30,LIS,03:10", "ZZ7A,ZRH,21:30,GVA,22:15"],
            "throughs.csv": ["ZZ7A,ZZ7B,0"],
            "names.csv": ["ZZ7B,ZZ,7,,01,2,4,2026-11-29", "ZZ7A,ZZ,7,,01,1,3,2026-11-30"],
        },
    ),
    "names of 8 bytes and longer ones": (
        [
            out(1234, airline="XYZ"), leg("XYZ", 1235, "ZRH 0900 +0100 LHR 1050 +0000", "320"),
            leg("XYZ", 1235, "LHR 1200 +0000 DUB 1300 +0000", "320", sequence=2),
            leg("XYZ", 1236, "ZRH 1000 +0100 LHR 1150 +0000", "320", b2="D"), leg("XYZ", 1237, "ZRH 1100 +0100 LHR 1250 +0000", "320", b2="D"),
            leg("XYZ", 1237, "LHR 1330 +0000 DUB 1430 +0000", "320", b2="D", sequence=2),
        ], "L", "",
        {"plan.csv": ["XYZ1234,320", "XYZ1235A,320", "XYZ1236D,320", "N1,320", "XYZ1235B,320", "N2,320"]},
    ),
    "one flight number twice in a day": ([out(), out(variation=2, way="ZRH 1800 +0100 LHR 1950 +0000")], "L", "", {
        "legs.csv": ["ZZ1,ZRH,07:00,LHR,09:50", "N1,ZRH,17:00,LHR,19:50"], "names.csv": [f"ZZ1,ZZ,1,,01,1,3,{DATE}", f"N1,ZZ,1,,02,1,4,{DATE}"],
    }),
    "numbers that are names already": (
        [out(1, airline="N1"), *(out(5, f"ZRH {it:02}30 +0100 LHR {it:02}50 +0000", airline="N1", variation=it) for it in range(8, 20))], "L", "",
        {"plan.csv": [f"{it},320" for it in ("N11", "N15", *(f"N{number}" for number in range(1, 11)), "N12")]},
    ),
    "two variations of a flight of two legs in a day": (
        [
            out(7, "ZRH 0700 +0100 GVA 0745 +0100"), out(7, "GVA 1830 +0100 LIS 2010 +0000", sequence=2),
            out(7, "ZRH 0600 +0100 GVA 0645 +0100", variation=2), out(7, "GVA 0930 +0100 LIS 1110 +0000", variation=2, sequence=2),
            out(7, "ZRH 0500 +0100 GVA 0545 +0100", variation=3),
        ], "L", "",
        {
            "names.csv": [
                f"ZZ7A,ZZ,7,,03,1,7,{DATE}", f"N1,ZZ,7,,02,1,5,{DATE}", f"N2,ZZ,7,,01,1,3,{DATE}", f"ZZ7B,ZZ,7,,02,2,6,{DATE}", f"N3,ZZ,7,,01,2,4,{DATE}",
            ],
            "throughs.csv": ["ZZ7A,ZZ7B,0", "N1,ZZ7B,0", "N2,N3,0"],
        },
    ),
    "shared flights": ([*with_segment(out(5), "050"), *with_segment(out(6), "010"), out(7, b149="Z")], "L", "", {"plan.csv": ["ZZ6,320"]}),
    "surface transport": ([out(kind="BUS"), back(service="U"), out(3)], "L", "", {"plan.csv": ["ZZ3,320"]}),
    "surface transport that is asked for": ([out(kind="BUS"), back(service="U")], "L", "--surface", {"plan.csv": ["ZZ1,BUS", "ZZ2,320"]}),
    "service types": ([*LOCAL, out(3, service="F"), out(4, service="C")], "L", "--service FC", {"plan.csv": ["ZZ3,320", "ZZ4,320"]}),
    "aircraft types": ([*LOCAL, out(3, kind="E90"), out(4, kind="223")], "L", "--types 223,E90", {"plan.csv": ["ZZ3,E90", "ZZ4,223"]}),
    "stations alone": (
        [*LOCAL, out(3, "LHR 1500 +0000 DUB 1600 +0000")], "L", "--stations-only LHR,DUB", {"plan.csv": ["ZZ3,320"], "stations.csv": ["DUB,0,no", "LHR,0,no"]},
    ),
    "aircraft as the plan as filed uses": ([*LOCAL, out(3, kind="E90"), back(4, kind="E90"), out(5), back(6)], "L", "", {"fleets.csv": ["320,2,30", "E90,1,30"]}),
    "a plan as filed that isn't balanced": ([out()], "L", "", {"fleets.csv": ["320,500,30"]}),
    "the caller's stations and fleets": (LOCAL, "L", "--stations stations --fleets fleets", {
        "stations.csv": ["ZRH,5,yes", "LHR,0,no"], "fleets.csv": ["E90,3,25", "320,2,35"], "costs.csv": ["ZZ1,320,0", "ZZ2,320,0"],
    }),
    "the caller's stations with room for some aircraft at night": (
        LOCAL, "L", "--stations limited", {"stations.csv": ["ZRH,5,yes,0", "LHR,0,no,-"], "fleets.csv": ["320,1,30"]},
    ),
    "the caller's costs": ([*LOCAL, out(3, "ZRH 0900 +0100 LUG 0945 +0100")], "L", "--fleets fleets --costs costs", {
        "costs.csv": ["ZZ1,E90,13900", "ZZ1,320,9500", "ZZ3,E90,5150", "ZZ2,E90,5500", "ZZ2,320,3500"],
    }),
}  # fmt: skip
# The same of a week, which begins on the Monday.
WEEKS: Dict[str, Tuple[List[str], Dict[str, List[str]]]] = {
    "two flights on some days of a week": ([out(days="14"), back(days="15")], {
        "legs.csv": ["ZZ1D1,1,ZRH,07:00,LHR,09:50", "ZZ2D1,1,LHR,11:00,ZRH,11:50", "ZZ1D4,4,ZRH,07:00,LHR,09:50", "ZZ2D5,5,LHR,11:00,ZRH,11:50"],
        "stations.csv": ["LHR,0,no", "ZRH,0,no"],
        "fleets.csv": ["320,1,30"],
        "costs.csv": ["ZZ1D1,320,0", "ZZ2D1,320,0", "ZZ1D4,320,0", "ZZ2D5,320,0"],
        "throughs.csv": [],
        "plan.csv": ["ZZ1D1,320", "ZZ2D1,320", "ZZ1D4,320", "ZZ2D5,320"],
        "names.csv": [f"ZZ1D1,ZZ,1,,01,1,3,{DATE}", f"ZZ2D1,ZZ,2,,01,1,4,{DATE}", "ZZ1D4,ZZ,1,,01,1,3,2026-12-03", "ZZ2D5,ZZ,2,,01,1,4,2026-12-04"],
    }),
    "Mondays' legs that depart on Sundays in UTC": ([out(1, "ZRH 0030 +0100 LHR 0220 +0000", days="1")], {
        "legs.csv": ["ZZ1D7,7,ZRH,23:30,LHR,02:20"], "names.csv": ["ZZ1D7,ZZ,1,,01,1,3,2026-12-07"],
    }),
    "Sundays' legs that depart on Mondays in UTC": ([out(1, "YYT 2330 -0330 ZRH 1030 +0100", days="7", shifts="01")], {
        "legs.csv": ["ZZ1D1,1,YYT,03:00,ZRH,09:30"], "names.csv": ["ZZ1D1,ZZ,1,,01,1,3,2026-11-29"],
    }),
    "a weekend that differs": ([out(days="45"), out(kind="E90", way="ZRH 1000 +0100 LHR 1150 +0000", days="6", variation=2)], {
        "legs.csv": ["ZZ1D4,4,ZRH,07:00,LHR,09:50", "ZZ1D5,5,ZRH,07:00,LHR,09:50", "ZZ1D6,6,ZRH,09:00,LHR,11:50"],
        "plan.csv": ["ZZ1D4,320", "ZZ1D5,320", "ZZ1D6,E90"],
    }),
    "every second week, of which a week has parts of two": (
        [out(b36="2", days="123", period=("27OCT26", "22MAR27")), out(3, b36="2", days="123", period=("20OCT26", "22MAR27"))],
        {"plan.csv": ["ZZ1D1,320", "ZZ3D2,320", "ZZ3D3,320"]},
    ),
    "a period that ends in the week": ([out(period=("25OCT26", "01DEC26")), back(period=("06DEC26", "00XXX00"))], {
        "plan.csv": ["ZZ1D1,320", "ZZ1D2,320", "ZZ2D7,320"],
    }),
    "a flight that is cut by midnight, and by the week's end": (
        [out(7, "ZRH 2230 +0100 GVA 2315 +0100", days="67"), out(7, "GVA 0130 +0100 LIS 0310 +0000", days="67", sequence=2, shifts="11")],
        {
            "legs.csv": ["ZZ7BD1,1,GVA,00:30,LIS,03:10", "ZZ7AD6,6,ZRH,21:30,GVA,22:15", "ZZ7BD7,7,GVA,00:30,LIS,03:10", "ZZ7AD7,7,ZRH,21:30,GVA,22:15"],
            "throughs.csv": ["ZZ7AD6,ZZ7BD7,0", "ZZ7AD7,ZZ7BD1,0"],
        },
    ),
    "names of 8 bytes and longer ones in a week": (
        [leg("XYZ", 1234, "ZRH 0800 +0100 LHR 0950 +0000", "320", "12"), leg("XYZ", 123, "ZRH 0900 +0100 LHR 1050 +0000", "320", "2")],
        {"plan.csv": ["N1,320", "N2,320", "XYZ123D2,320"]},
    ),
    "aircraft as the busiest day of the week uses": (
        [*LOCAL, out(3, days="7"), back(4, days="7"), out(5, kind="E90", days="1"), back(6, kind="E90", days="6")], {"fleets.csv": ["320,2,30", "E90,1,30"]},
    ),
}  # fmt: skip
CALLERS = {
    "stations": "code,extra,maintenance\nZRH,5,yes\nDUB,0,no\nLHR,0,no\n",
    "limited": "code,extra,maintenance,parking\nZRH,5,yes,0\nDUB,0,no,1\nLHR,0,no,-\n",
    "fleets": "fleet,aircraft,turn\nE90,3,25\n320,2,35\n",
    "costs": "fleet,departure,minute,longest,closed\n320,1000,50,170,LUG LCY\nE90,2000,70,,\n",
}
# What standard error is told, of some cases.
TOLD = {
    "shared flights": "left out: 1 flown under another number (segment data 050), 1 operated by another airline (byte 149)",
    "surface transport": "left out: 2 by surface (--surface keeps them)",
    "service types": "left out: 2 of another service type",
    "aircraft types": "left out: 2 of another aircraft type",
    "stations alone": "left out: 2 to or from another station",
    "local time": f"2 legs depart on {DATE} in UTC: 2 stations, 1 aircraft types",
    "aircraft as the plan as filed uses": "aircraft that the plan as filed uses: 320 2, E90 1",
    "a plan as filed that isn't balanced": "arrivals less departures: 320 at LHR +1, 320 at ZRH -1\nssim: a week may be balanced where a date isn't: --week",
    "a Monday's leg that departs on the Sunday in UTC": "the file is valid from 2026-10-25 to 2027-03-27",
    "the caller's costs": "1 legs may not be flown by their filed type by costs, the first is ZZ3",
    "two flights on some days of a week": f"4 legs depart in the 7 days from {DATE} in UTC: 2 stations, 1 aircraft types",
    "aircraft as the busiest day of the week uses": "aircraft that the plan as filed uses: 320 2, E90 1",
}
MOST_AIRCRAFT = "so fleets.csv has 500 of each: write how many there are, or give --fleets"
FEWER = "no fleet may have more: ask for fewer legs, with --types, --stations-only or --service"


def make(folder: Path, lines: Sequence[str], words: str, option: str = "--date") -> Tuple[int, str]:
    """Calls `tables` on lines in a folder, where the caller's files stand too, for a date or a week."""
    (folder / "season").write_bytes(text(lines).encode("ascii"))
    for name, data in CALLERS.items():
        (folder / name).write_text(data, encoding="ascii")
    own = [str(folder / it) if it in CALLERS else it for it in words.split()]
    return call("tables", folder / "season", folder / "day", option, DATE, *own)


def without_zones(folder: Path) -> List[str]:
    """Returns the records of names.csv without the variations from UTC, which test_used.py tries."""
    return [it.rsplit(",", 2)[0] for it in records(folder / "day", "names.csv")]


def wrong(folder: Path, wanted: Mapping[str, Sequence[str]], made: Tuple[int, str], line: Optional[str]) -> Optional[str]:
    """Returns how tables differ from the wanted records, or None."""
    status, told = made
    if status:
        return f"status {status}: {told}"
    for name, rows in wanted.items():
        if records(folder / "day", name) != rows and (name, without_zones(folder)) != ("names.csv", rows):
            return f"{name}: wanted\n{rows}\ncame\n{records(folder / 'day', name)}"
    told = told.replace(f"{folder}/", "")
    return None if line is None or f"ssim: {line}\n" in told else f"wanted:\n{line}\ncame:\n{told}"


def by_season(winter: Sequence[str], summer: Sequence[str]) -> List[str]:
    """A file of two carrier records, of a winter and a summer."""
    first = carrier("ZZ", "L", ("25OCT26", "29NOV26"))
    second = carrier("ZZ", "U", ("30NOV26", "30OCT27"), "S27")
    return numbered([header(), first, *winter, trailer("ZZ", "C"), second, *summer, trailer("ZZ")])


@pytest.mark.usefixtures("program")
@pytest.mark.parametrize("name", [*TABLES, *WEEKS])
def test_tables(name: str, scratch: Path) -> None:
    """Tables of a small schedule are as a person would write them."""
    legs, mode, words, wanted = TABLES[name] if name in TABLES else (WEEKS[name][0], "L", "", WEEKS[name][1])
    lines = [it for it in whole(legs[0][2:5].strip(), legs, mode) if it.strip("0")]
    assert not wrong(scratch, wanted, make(scratch, lines, words, "--week" if name in WEEKS else "--date"), TOLD.get(name))


@pytest.mark.usefixtures("program")
def test_two_seasons(scratch: Path) -> None:
    """The carrier record of the date's season counts alone."""
    made = make(scratch, by_season([out(1)], [out(2), back(3)]), "")
    wanted = {"legs.csv": ["ZZ2,ZRH,08:00,LHR,09:50", "ZZ3,LHR,11:00,ZRH,12:50"]}
    assert not wrong(scratch, wanted, made, "left out: 1 of another season, by their carrier record")


PAIRS = [chr(65 + it // 26) + chr(65 + it % 26) for it in range(334)]
# One leg, station or aircraft type more than tables may have, and what is told of them.
LIMITS = {
    "legs": ([out(it) for it in range(1, 1002)], "1,001 legs on 2026-11-30, and tables have 1,000 at most: ask for fewer "
             "(--types: 320 1001; --stations-only: LHR 1001, ZRH 1001; --service: J 1001)"),
    "stations": ([out(it + 1, f"ZRH 0800 +0100 X{PAIRS[it]} 0950 +0000") for it in range(200)], "201 stations on 2026-11-30, and tables have 200 at most: "
                 "ask for fewer (--types: 320 200; --stations-only: ZRH 200, XAA 1, XAB 1, XAC 1, XAD 1, XAE 1 and 195 more; --service: J 200)"),
    "types": ([out(it + 1, kind=f"3{PAIRS[it]}") for it in range(21)], "21 aircraft types on 2026-11-30, and tables have 20 at most: "
              "ask for fewer (--types: 3AA 1, 3AB 1, 3AC 1, 3AD 1, 3AE 1, 3AF 1 and 15 more; --stations-only: LHR 21, ZRH 21; --service: J 21)"),
}  # fmt: skip


@pytest.mark.parametrize("name", LIMITS)
def test_limit(name: str, scratch: Path) -> None:
    """One more than tables may have is refused, and nothing is written."""
    legs, line = LIMITS[name]
    status, told = make(scratch, whole("ZZ", legs), "")
    assert (status, told.replace(f"{scratch}/", ""), standing(scratch / "day")) == (6, f"ssim: season: {line}\n", None)


@pytest.mark.usefixtures("program")
def test_limit_of_aircraft(scratch: Path) -> None:
    """A plan as filed that uses more aircraft than a fleet may have is told."""
    ways = {0: "ZRH 0800 +0000 LHR 0700 +0000", 1: "LHR 0800 +0000 ZRH 0700 +0000"}
    status, told = make(scratch, whole("ZZ", [out(it, ways[it % 2], shifts="01") for it in range(1, 521)]), "")
    wanted = ["the plan as filed doesn't say how many aircraft it uses: too many: 320 used 520 of 500", MOST_AIRCRAFT, FEWER]
    assert (status, records(scratch / "day", "fleets.csv")) == (0, ["320,500,30"])
    assert [it[6:] for it in told.splitlines()[1:]] == wanted


def test_limit_of_a_week(scratch: Path) -> None:
    """Legs count on each day of a week."""
    status, told = make(scratch, whole("ZZ", [out(it) for it in range(1, 144)]), "", "--week")
    assert f": 1,001 legs in the 7 days from {DATE}, and tables have 1,000 at most: ask for fewer (" in told
    assert (status, standing(scratch / "day")) == (6, None)
