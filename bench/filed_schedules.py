"""Schedules of folders with the five tables, as schedule files of made airlines: tools/ssim is to make the same tables of them."""

import re
from typing import Any, Callable, Dict, List, Mapping, Optional, Sequence, Tuple

import shared  # noqa: F401
from pathlib import Path
from schedule_lines import EVERY_DAY, leg, text, whole, zone

from fleetplan.records import rows_of
from fleetplan.times import DAY, clock, minute_of

DATE = "2026-11-30"
ZONES = (60, 0, -210, 345, -480, 720, 120)


def shift(days: int) -> str:
    """Returns a date variation."""
    return "A" if days < 0 else str(days)


def record(number: int, row: Sequence[str], kind: str, zones: Mapping[str, int], is_local: bool) -> str:
    """A leg's record: its date of operation is that of its departure in local time. One of a week goes on one day of it, from Monday."""
    _, *day, origin, dep, destination, arr = row
    departs, arrives = minute_of(dep), minute_of(arr)
    arrives += DAY if arrives < departs else 0
    ends = [departs + is_local * zones[origin], arrives + is_local * zones[destination]]
    days = ends[1] // DAY - ends[0] // DAY
    times = [clock(it).replace(":", "") for it in ends]
    way = f"{origin} {times[0]} {zone(zones[origin])} {destination} {times[1]} {zone(zones[destination])}"
    operates = EVERY_DAY[(int(day[0]) - 1 + ends[0] // DAY) % 7] if day else EVERY_DAY
    return leg("ZZ", number, way, kind, operates, shifts=f"0{shift(days)}")


def differs(folder: Path, scratch: Path, mode: str, ssim: Callable[..., Tuple[int, str]]) -> Optional[str]:
    """Returns which table of a schedule isn't the same after its way through a file, or None. `ssim` calls tools/ssim with words, and
    returns its status and what it told."""
    stations, fleets, legs = (rows_of(str(folder), f"{it}.csv") for it in ("stations", "fleets", "legs"))
    zones = {it[0]: ZONES[at % len(ZONES)] for at, it in enumerate(stations)}
    codes = {it[0]: it[0] if re.fullmatch(".{3}", it[0]) else f"Q{at:02}" for at, it in enumerate(fleets)}
    filed: Dict[str, str] = {}
    for flight, fleet, _ in rows_of(str(folder), "costs.csv"):
        filed.setdefault(flight, codes[fleet])
    records = [record(at, row, filed[row[0]], zones, mode == "L") for at, row in enumerate(legs, 1)]
    (scratch / "season").write_bytes(text(whole("ZZ", records, mode)).encode("ascii"))
    own = [[codes[fleet], *rest] for fleet, *rest in fleets]
    (scratch / "fleets").write_text("fleet,aircraft,turn\n" + "".join(f"{','.join(it)}\n" for it in own), encoding="ascii")
    given = ["--fleets", scratch / "fleets", "--stations", folder / "stations.csv"]
    is_week = legs and len(legs[0]) > 5
    status, told = ssim("tables", scratch / "season", scratch / "day", "--week" if is_week else "--date", DATE, *given)
    if status:
        return told
    names = {f"ZZ{at}D{row[1]}" if is_week else f"ZZ{at}": row[0] for at, row in enumerate(legs, 1)}
    came = [[names[it[0]], *it[1:]] for it in rows_of(str(scratch / "day"), "legs.csv")]
    plan = [(names[flight], kind) for flight, kind in rows_of(str(scratch / "day"), "plan.csv")]
    flown = {code for row in legs for code in (row[-4], row[-2])}
    compared: Tuple[Tuple[str, List[Any], List[Any]], ...] = (
        ("legs", sorted(legs), sorted(came)),
        ("stations", [it for it in stations if it[0] in flown], rows_of(str(scratch / "day"), "stations.csv")),
        ("fleets", own, rows_of(str(scratch / "day"), "fleets.csv")),
        ("plan", sorted(filed.items()), sorted(plan)),
        ("order of legs", sorted(came, key=lambda it: (it[1] if is_week else "", it[-3])), came),
    )
    for name, before, after in compared:
        if before != after:
            return f"{name}: {[it for it in before if it not in after][:3]} became {[it for it in after if it not in before][:3]}"
    return None
