#!/usr/bin/env python3
"""Writes the schedule file of a made airline with its prices, stations, other times and legs that may be left out, the same at each run:
what examples/ssim holds.

usage: made_airline.py FOLDER

From a hub four aircraft types fly 60 legs on each day from Monday to Friday and fewer at the weekend. There are a flight of three legs,
over midnight on its way, flights to stations at -0330 and +0545, one every second week, one that another airline flies, one that it
may fly with another's aircraft, and a bus.
"""

import sys
from pathlib import Path
from typing import Dict, Iterator

from schedule_lines import leg, segment, text, whole, zone

AIRLINE, HUB, HUB_ZONE, TURN = "ZZ", "ZRH", 60, 45
WEEKDAYS, WEEKEND = "12345", "67"
# Of each spoke its variation from UTC and the block to it, in minutes.
SPOKES = {
    "LHR": (0, 110), "CDG": (60, 75), "FRA": (60, 60), "VIE": (60, 85), "BCN": (60, 105), "FCO": (60, 95), "AMS": (60, 95),
    "HAM": (60, 90), "ATH": (120, 155), "LUG": (60, 45), "PRG": (60, 75), "BUD": (60, 95), "MAD": (60, 140), "WAW": (60, 115),
}  # fmt: skip
# What each aircraft flies from the hub and back, from a time of the morning on.
DAYS = {
    WEEKDAYS: (
        ("320", 360, "LHR BCN FRA"), ("320", 400, "ATH MAD"), ("320", 425, "VIE CDG LHR"),
        ("223", 365, "AMS HAM PRG FRA"), ("223", 390, "BUD WAW CDG"), ("223", 480, "FCO VIE AMS"),
        ("E90", 370, "LUG FRA LUG PRG"), ("E90", 445, "HAM LUG BUD"),
    ),
    WEEKEND: (("223", 480, "LHR BCN FRA"), ("320", 500, "ATH"), ("E90", 510, "AMS HAM")),
}  # fmt: skip
PRICES = "fleet,departure,minute,longest,closed\n223,750,45,300,\n320,900,52,400,LUG\n333,2500,110,,LUG FNC\nE90,500,36,130,\n"
STATIONS = ("ZRH", "GVA")
WINDOWS = "flight,shift,extra\n*,-15,100\n*,15,100\n"
OPTIONAL = "flight,skip\nZZ324,2000\nZZ325,2000\n"


def way(origin: str, departs: int, destination: str, arrives: int) -> str:
    """The way of a leg: stations with minutes in local time."""
    there, back = ((code, SPOKES.get(code, (HUB_ZONE,))[0]) for code in (origin, destination))
    clock = [f"{it // 60:02}{it % 60:02}" for it in (departs, arrives)]
    return f"{there[0]} {clock[0]} {zone(there[1])} {back[0]} {clock[1]} {zone(back[1])}"


def trips() -> Iterator[str]:
    """The legs between the hub and its spokes. A spoke's n-th trip of a day has the same flight numbers on all days."""
    found = []
    for variation, (days, tours) in enumerate(DAYS.items(), 1):
        times = {it: 0 for it in SPOKES}
        for kind, minute, spokes in tours:
            for code in spokes.split():
                offset, block = SPOKES[code]
                number = 300 + 10 * list(SPOKES).index(code) + 2 * times[code]
                times[code] += 1
                there = minute + block + offset - HUB_ZONE
                back = there + TURN
                home = minute + 2 * block + TURN
                found.append((number, variation, kind, days, way(HUB, minute, code, there)))
                found.append((number + 1, variation, kind, days, way(code, back, HUB, home)))
                minute = home + TURN
    numbers: Dict[int, int] = {}
    for number, _, kind, days, path in sorted(found):
        numbers[number] = numbers.get(number, 0) + 1
        yield leg(AIRLINE, number, path, kind, days, variation=numbers[number])


def others() -> Iterator[str]:
    """The legs that are something of their own."""
    far = leg(AIRLINE, 90, "ZRH 2155 +0100 KTM 1110 +0545", "333", shifts="01")
    yield far
    yield segment(far, "010", "XY 7090")
    yield leg(AIRLINE, 91, "KTM 1310 +0545 ZRH 1740 +0100", "333")
    yield leg(AIRLINE, 92, "ZRH 1300 +0100 YYT 1530 -0330", "333")
    yield leg(AIRLINE, 93, "YYT 2230 -0330 ZRH 0915 +0100", "333", shifts="01")
    yield leg(AIRLINE, 200, "ZRH 2000 +0100 GVA 2045 +0100", "320")
    yield leg(AIRLINE, 200, "GVA 2130 +0100 LIS 2310 +0000", "320", sequence=2)
    yield leg(AIRLINE, 200, "LIS 0010 +0000 FNC 0150 +0000", "320", sequence=3, shifts="11")
    yield leg(AIRLINE, 201, "FNC 0600 +0000 LIS 0740 +0000", "320")
    yield leg(AIRLINE, 201, "LIS 0830 +0000 GVA 1200 +0100", "320", sequence=2)
    yield leg(AIRLINE, 201, "GVA 1245 +0100 ZRH 1330 +0100", "320", sequence=3)
    yield leg(AIRLINE, 250, "ZRH 1000 +0100 TFS 1345 +0000", "320", "1", b36="2", period=("26OCT26", "22MAR27"))
    yield leg(AIRLINE, 251, "TFS 1445 +0000 ZRH 2010 +0100", "320", "1", b36="2", period=("26OCT26", "22MAR27"))


def elsewhere() -> Iterator[str]:
    """The legs that the airline's own aircraft don't fly."""
    shared = leg(AIRLINE, 4801, "ZRH 0950 +0100 JFK 1310 -0500", "77W")
    yield shared
    yield segment(shared, "050", "XY 0018")
    yield leg(AIRLINE, 4803, "ZRH 1640 +0100 ZAG 1810 +0100", "DH4", b149="X")
    yield leg(AIRLINE, 8001, "ZRH 0700 +0100 BSL 0830 +0100", "BUS", service="U")
    yield leg(AIRLINE, 8002, "BSL 2000 +0100 ZRH 2130 +0100", "BUS", service="U")


def main() -> None:
    """Writes the files of the airline."""
    if len(sys.argv) != 2:
        sys.exit(__doc__)
    folder = Path(sys.argv[1])
    folder.mkdir(parents=True, exist_ok=True)
    lines = whole(AIRLINE, [*others(), *trips(), *elsewhere()])
    (folder / "season.ssim").write_bytes(text(lines).encode("ascii"))
    for name, held in (("prices.csv", PRICES), ("windows.csv", WINDOWS), ("optional.csv", OPTIONAL)):
        (folder / name).write_bytes(held.encode("ascii"))
    codes = sorted({it[at : at + 3] for it in lines if it[0] == "3" for at in (36, 54)})
    rows = [f"{it},0,{'yes' if it in STATIONS else 'no'}\n" for it in codes]
    (folder / "stations.csv").write_bytes(("code,extra,maintenance\n" + "".join(rows)).encode("ascii"))


if __name__ == "__main__":
    main()
