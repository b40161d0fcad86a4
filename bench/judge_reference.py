#!/usr/bin/env python3
"""Judges a plan apart from the program, and prints what `fleetplan judge DIR --day-start HH:MM --period P` must print, with the same flags.

usage: judge_reference.py DIR HH:MM [P] [--windows] [--optional]      (without a P: a period of 1 day)

It takes tables that read, and stops with an error where they don't. It counts aircraft at every minute of the period,
and stops with an error where flights under way and aircraft on the ground don't sum to the aircraft used.
"""

import csv
import re
import sys
from itertools import accumulate
from pathlib import Path
from typing import Any, Dict, Iterable, List, Mapping, Optional, Tuple

DAY = 1440
MOST_COST = 10**12
MOST_SHIFT, MOST_WINDOWS, MOST_TRIPLES = 720, 8, 20_000
LEFT_OUT = "-"
CODE = "[A-Z]{3}"
NAME = "[A-Z0-9]{1,8}"
TIME = "([01][0-9]|2[0-3]):[0-5][0-9]"
WHOLE = "-?[0-9]{1,20}"
FLAG = "yes|no"
LIMIT = f"-|{WHOLE}"
# The header and the forms of each file's fields.
FILES = {
    "stations.csv": {"code": CODE, "extra": WHOLE, "maintenance": FLAG, "parking": LIMIT},
    "fleets.csv": {"fleet": NAME, "aircraft": WHOLE, "turn": WHOLE},
    "legs.csv": {"flight": NAME, "day": WHOLE, "from": CODE, "dep": TIME, "to": CODE, "arr": TIME},
    "costs.csv": {"flight": NAME, "fleet": NAME, "cost": WHOLE},
    "throughs.csv": {"in": NAME, "out": NAME, "value": WHOLE},
    "windows.csv": {"flight": NAME, "shift": WHOLE, "extra": WHOLE},
    "optional.csv": {"flight": NAME, "skip": WHOLE},
    "plan.csv": {"flight": NAME, "fleet": NAME},
}
Rows = List[List[str]]
# A fleet, or LEFT_OUT, and a shift; and of each flight its choice.
Choice = Tuple[str, int]
Plan = Dict[str, Choice]


def wanted(holds: object, what: str) -> None:
    """Ends where something doesn't hold."""
    if not holds:
        sys.exit(f"judge_reference: {what}")


def records(folder: Path, name: str, period: int = 1, forms: Optional[Mapping[str, str]] = None) -> Rows:
    """The records of a file below its header, each field in its form, by the file's forms where none are given. Where the period is a day
    legs may have none, and stations may have no limits."""
    if name == "throughs.csv" and (folder / name).stat().st_size == 0:
        return []
    with open(folder / name, newline="", encoding="utf-8-sig") as file:
        header, *rows = [row for row in csv.reader(file) if row]
    forms = forms or FILES[name]
    if name == "legs.csv" and period == 1 and "day" not in header:
        header.insert(1, "day")
        rows = [[*row[:1], "1", *row[1:]] for row in rows]
    if name == "stations.csv" and "parking" not in header:
        header.append("parking")
        rows = [[*row, "-"] for row in rows]
    wanted(header == list(forms), f"{name}: the header is wrong")
    for row in rows:
        wanted(len(row) == len(forms), f"{name}: {row} has another number of fields")
        for field, form in zip(row, forms.values()):
            wanted(re.fullmatch(form, field), f"{name}: {field} has not its form")
    return rows


def table(rows: Rows, keys: int, most: int, what: str) -> Dict[Any, List[str]]:
    """What stands under the first fields of each record, which differ from one another."""
    found = {tuple(row[:keys]) if keys > 1 else row[0]: row[keys:] for row in rows}
    wanted(len(found) == len(rows), f"{what}: a name or a pair stands twice")
    wanted(len(rows) <= most, f"{what}: there are too many records")
    return found


def number(text: str, least: int, most: int) -> int:
    """Returns a number, and ends where it isn't within bounds."""
    wanted(least <= int(text) <= most, f"{text} is not from {least} to {most}")
    return int(text)


def minute(text: str) -> int:
    """Returns the minute of the day that HH:MM tells."""
    return 60 * int(text[:2]) + int(text[3:])


class Tables:
    """The tables of a folder, within all limits, in minutes from the day start of the first day."""

    def __init__(self, folder: Path, day_start: int, period: int = 1, windows: bool = False, optional: bool = False) -> None:
        self.minutes, self.windows, self.optional = DAY * period, windows, optional
        stations = table(records(folder, "stations.csv"), 1, 200, "stations.csv")
        fleets = table(records(folder, "fleets.csv"), 1, 20, "fleets.csv")
        legs = table(records(folder, "legs.csv", period), 1, 1000, "legs.csv")
        costs = table(records(folder, "costs.csv"), 2, len(legs) * len(fleets), "costs.csv")
        throughs = table(records(folder, "throughs.csv"), 2, 2000, "throughs.csv")
        self.extra = {code: number(row[0], 0, 600) for code, row in stations.items()}
        self.parking = {code: number(row[2], 0, 10_000) for code, row in stations.items() if row[2] != "-"}
        self.aircraft = {fleet: number(row[0], 0, 500) for fleet, row in fleets.items()}
        self.turn = {fleet: number(row[1], 0, 600) for fleet, row in fleets.items()}
        self.costs = {pair: number(row[0], -MOST_COST, MOST_COST) for pair, row in costs.items()}
        self.legs = {}
        for flight, (day, origin, dep, target, arr) in legs.items():
            block = (minute(arr) - minute(dep)) % DAY
            departs = DAY * (number(day, 1, period) - 1) + minute(dep)
            known = origin in self.extra and target in self.extra
            wanted(known and origin != target and block > 0, f"legs.csv: {flight} cannot be flown")
            self.legs[flight] = origin, (departs - day_start) % self.minutes, target, block
        wanted(all(flight in legs and fleet in fleets for flight, fleet in costs), "costs.csv: an unknown name")
        for (arriving, departing), row in throughs.items():
            wanted(arriving in legs and departing in legs, "throughs.csv: an unknown flight")
            number(row[0], 0, MOST_COST)
        self.extras = {flight: {0: 0} for flight in legs}
        if windows:
            self.read_windows(records(folder, "windows.csv"))
        skips = table(records(folder, "optional.csv"), 1, 1000, "optional.csv") if optional else {}
        wanted(all(flight in legs for flight in skips), "optional.csv: an unknown flight")
        self.skips = {flight: number(row[0], -MOST_COST, MOST_COST) for flight, row in skips.items()}

    def read_windows(self, rows: Rows) -> None:
        """Reads other times of legs."""
        for flight, text, extra in rows:
            shift = number(text, -MOST_SHIFT, MOST_SHIFT)
            wanted(flight in self.legs and shift not in self.extras[flight], "windows.csv: an unknown flight, or a shift that it has")
            self.extras[flight][shift] = number(extra, -MOST_COST, MOST_COST)
        wanted(all(len(it) <= MOST_WINDOWS + 1 for it in self.extras.values()), "windows.csv: a flight has too many shifts")
        wanted(len(rows) <= 8000, "windows.csv: there are too many records")
        triples = sum(len(self.extras[flight]) for flight, _ in self.costs)
        wanted(not rows or triples <= MOST_TRIPLES, "windows.csv: flights with a fleet at a time are too many")

    def price(self, flight: str, fleet: str, shift: int) -> Optional[int]:
        """What it costs to fly a leg so, or to leave it out; none where that may not be."""
        if fleet == LEFT_OUT:
            return self.skips.get(flight)
        cost = self.costs.get((flight, fleet))
        return None if cost is None else cost + self.extras[flight][shift]

    def choices(self, flight: str) -> List[Choice]:
        """The fleets and shifts by which a leg may be flown, and that it is left out, where it may be."""
        flown = [(fleet, shift) for fleet in self.aircraft if (flight, fleet) in self.costs for shift in self.extras[flight]]
        return flown + [(LEFT_OUT, 0)] * (flight in self.skips)

    def plan(self, folder: Path) -> Plan:
        """The fleet and the shift of each flight by the plan of a folder."""
        forms = {"flight": NAME, "fleet": f"{LEFT_OUT}|{NAME}", **({"shift": WHOLE} if self.windows else {})}
        rows = records(folder, "plan.csv", forms=forms)
        wanted([row[0] for row in rows] == list(self.legs), "plan.csv: not one record a leg, in schedule order")
        wanted(all(row[1] in self.aircraft or self.optional and row[1] == LEFT_OUT for row in rows), "plan.csv: an unknown fleet")
        for flight, fleet, *shifts in rows:
            own = {0} if fleet == LEFT_OUT else self.extras[flight]
            wanted(all(it in map(str, own) for it in shifts), f"plan.csv: an unknown shift of {flight}")
        return {flight: (fleet, int(shifts[0]) if shifts else 0) for flight, fleet, *shifts in rows}


class Movements:
    """What the aircraft of one fleet do through the period: its flights, by some minutes later where shifts say so."""

    def __init__(self, tables: Tables, flights: Iterable[str], fleet: str, shifts: Mapping[str, int] = {}) -> None:
        self.minutes = minutes = tables.minutes
        self.out = {code: [0] * minutes for code in tables.extra}
        self.ready = {code: [0] * minutes for code in tables.extra}
        self.under_way = [0] * minutes
        self.laps = 0
        for flight in flights:
            origin, dep, target, block = tables.legs[flight]
            dep = (dep + shifts.get(flight, 0)) % minutes
            free = dep + block + tables.turn[fleet] + tables.extra[target]
            self.out[origin][dep] += 1
            self.ready[target][free % minutes] += 1
            self.laps += free // minutes
            for ago in range(0, free + 1, minutes):
                for now in range(max(0, dep - ago), min(minutes, free - ago)):
                    self.under_way[now] += 1
        self.need = {code: self.least_stock(code) for code in tables.extra}
        self.used = sum(self.need.values()) + self.laps
        self.add_up()

    def least_stock(self, code: str) -> int:
        """Returns how many aircraft have to be at a station at first."""
        return -min(accumulate((ready - out for ready, out in zip(self.ready[code], self.out[code])), initial=0))

    def stands(self, code: str, end: int) -> int:
        """How many aircraft are on the ground before the minute at which a day ends."""
        return self.need[code] + sum(self.ready[code][:end]) - sum(self.out[code][:end])

    def add_up(self) -> None:
        """Ends where aircraft on the ground and under way don't sum to those that are used."""
        ground = sum(self.need.values())
        for now in range(self.minutes):
            ground += sum(self.ready[code][now] - self.out[code][now] for code in self.need)
            wanted(ground + self.under_way[now] == self.used, f"at minute {now} the aircraft don't add up")


def verdict(tables: Tables, plan: Plan) -> Tuple[List[str], int]:
    """The lines to print, and the status."""
    prices = {flight: tables.price(flight, *choice) for flight, choice in plan.items()}
    for flight, price in prices.items():
        if price is None:
            return [f"not allowed: {flight}"], 9
    moves = {}
    for fleet in tables.aircraft:
        shifts = {flight: shift for flight, (flown, shift) in plan.items() if flown == fleet}
        moves[fleet] = Movements(tables, shifts, fleet, shifts)
    for fleet, move in moves.items():
        for code in tables.extra:
            came, left = sum(move.ready[code]), sum(move.out[code])
            if came != left:
                return [f"unbalanced: {fleet} at {code}, in {came}, out {left}"], 9
    for fleet, move in moves.items():
        if move.used > tables.aircraft[fleet]:
            return [f"too many: {fleet} used {move.used} of {tables.aircraft[fleet]}"], 9
    for code, limit in tables.parking.items():
        for end in range(DAY, tables.minutes + 1, DAY):
            parked = sum(move.stands(code, end) for move in moves.values())
            if parked > limit:
                return [f"crowded: {code} day {end // DAY} parked {parked} of {limit}"], 9
    lines = [f"legal: cost {sum(it for it in prices.values() if it is not None)}"]
    for fleet, move in moves.items():
        lines.append(f"fleet {fleet}: used {move.used} of {tables.aircraft[fleet]}")
    return lines, 0


def main() -> None:
    """Prints the verdict on the plan of the words' folder."""
    flags = [it for it in ("--windows", "--optional") if it in sys.argv]
    words = [it for it in sys.argv[1:] if it not in flags]
    if len(words) not in (2, 3) or not re.fullmatch(TIME, words[1]) or not re.fullmatch("[1-7]", (words[2:] or "1")[0]):
        sys.exit(__doc__)
    folder = Path(words[0])
    tables = Tables(folder, minute(words[1]), int((words[2:] or "1")[0]), "--windows" in flags, "--optional" in flags)
    lines, status = verdict(tables, tables.plan(folder))
    print("\n".join(lines))
    sys.exit(status)


if __name__ == "__main__":
    main()
