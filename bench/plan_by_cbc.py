#!/usr/bin/env python3
"""Writes a cheapest plan for the tables of a folder, found by cbc and not by the program.

usage: plan_by_cbc.py DIR [HH:MM]

The day starts at the time of the second word, or else at 03:00. Where legs have a day, the schedule repeats after the last of these.
Where windows.csv or optional.csv stands there, legs may depart at its times, or be left out. Limits of parking are kept. The plan is
written as DIR/plan.csv, and its cost is printed. Each fleet has a time line at each station: its aircraft wait on arcs from a node,
which are some that become ready and then some that depart, to the next one, and from the last to the first. Where a station has a
limit, a node lies within a day.
"""

import subprocess
import sys
import tempfile
from collections import defaultdict
from pathlib import Path
from typing import Dict, List, Mapping, Optional, Sequence, Set, Tuple

from schedules import flags_of, period_of
from shared import FLAGGED, Place, put, rows

from fleetplan.tables import NO_FLEET, NO_LIMIT, SHIFTED
from fleetplan.times import DAY, minute_of
# A leg's place, a fleet and a shift; of each its departure, ready minute, laps and cost; and what happens in a minute: that and its term.
Key = Tuple[int, str, int]
Pairs = Dict[Key, Tuple[Optional[int], Optional[int], int, int]]
Event = Tuple[int, int, str]


def pairs_of(folder: Place, start: int) -> Tuple[List[Dict[str, str]], List[Tuple[str, int, int]], Pairs, Dict[str, int]]:
    """The legs, the fleets, and of each way to fly a leg, by its fleet and shift, its departure, ready minute, laps and cost. A leg that may
    be left out has a way without fleet that has its cost alone. Last come the limits of stations that have one."""
    stations = rows(folder, "stations.csv")
    extra = {row["code"]: int(row["extra"]) for row in stations}
    limits = {row["code"]: int(row["parking"]) for row in stations if row.get("parking", NO_LIMIT) != NO_LIMIT}
    fleets = [(row["fleet"], int(row["aircraft"]), int(row["turn"])) for row in rows(folder, "fleets.csv")]
    legs, period = rows(folder, "legs.csv"), DAY * period_of(folder)
    place = {leg["flight"]: number for number, leg in enumerate(legs)}
    turns = {name: turn for name, _, turn in fleets}
    flags, shifts = flags_of(folder), {it: [(0, 0)] for it in place}
    pairs: Pairs = {}
    for row in rows(folder, FLAGGED["--windows"]) if "--windows" in flags else ():
        shifts[row["flight"]].append((int(row["shift"]), int(row["extra"])))
    for row in rows(folder, "costs.csv"):
        leg = legs[place[row["flight"]]]
        block = (minute_of(leg["arr"]) - minute_of(leg["dep"])) % DAY
        for shift, more in shifts[row["flight"]]:
            departs = (DAY * (int(leg.get("day", 1)) - 1) + minute_of(leg["dep"]) - start + shift) % period
            ready = departs + block + turns[row["fleet"]] + extra[leg["to"]]
            pairs[place[row["flight"]], row["fleet"], shift] = (departs, ready % period, ready // period, int(row["cost"]) + more)
    for row in rows(folder, FLAGGED["--optional"]) if "--optional" in flags else ():
        pairs[place[row["flight"]], NO_FLEET, 0] = (None, None, 0, int(row["skip"]))
    return legs, fleets, pairs, limits


def program(
    legs: Sequence[Mapping[str, str]], fleets: Sequence[Tuple[str, int, int]], pairs: Pairs, limits: Mapping[str, int]
) -> Tuple[str, Dict[Key, str]]:
    """The text of the integer program, in the form that cbc reads."""
    name = {key: f"x{number}" for number, key in enumerate(pairs)}
    lines = ["Minimize", " cost: " + " + ".join(f"{pairs[key][3]} {name[key]}" for key in pairs).replace("+ -", "- "), "Subject To"]
    cover, events, laps = defaultdict(list), defaultdict(list), defaultdict(list)
    for key, (departs, ready, crossed, _) in pairs.items():
        leg, fleet, _ = key
        cover[leg].append(name[key])
        if departs is None or ready is None:
            continue
        events[fleet, legs[leg]["from"]].append((departs, 1, name[key]))
        events[fleet, legs[leg]["to"]].append((ready, 0, name[key]))
        if crossed:
            laps[fleet].append(f"{crossed} {name[key]}")
    lines += [" " + " + ".join(terms) + " = 1" for terms in cover.values()]
    stocks, parked, arcs = defaultdict(list), defaultdict(list), 0
    days = max((int(leg.get("day", 1)) for leg in legs), default=1)
    for (fleet, station), here in sorted(events.items()):
        nodes = nodes_of(here, station in limits)
        stocks[fleet].append(f"g{arcs}")
        for at, (_, signed) in enumerate(nodes):
            waits = [f"+ g{arcs + at}", f"- g{arcs + (at + 1) % len(nodes)}"] if len(nodes) > 1 else []
            lines.append(" " + " ".join(waits + signed) + " = 0")
        for day in range(days if station in limits else 0):
            later = (at for at, (first, _) in enumerate(nodes) if first >= DAY * (day + 1))
            parked[station, day].append(f"g{arcs + next(later, 0)}")
        arcs += len(nodes)
    lines += [" " + " + ".join(terms) + f" <= {limits[station]}" for (station, _), terms in parked.items()]
    for fleet, aircraft, _ in fleets:
        terms = stocks[fleet] + laps[fleet]
        if terms:
            lines.append(" " + " + ".join(terms) + f" <= {aircraft}")
    return "\n".join(lines + ["Binaries", " " + " ".join(name.values()), "End", ""]), name


def nodes_of(events: Sequence[Event], ends_with_day: bool) -> List[Tuple[int, List[str]]]:
    """The nodes of a time line, each as its first minute and the terms of what becomes ready there and then departs, in order of time."""
    nodes: List[Tuple[int, List[str]]] = []
    has_left, today = 0, -1
    for at, leaves, term in sorted(events):
        day = at // DAY if ends_with_day else 0
        if has_left and not leaves or day != today:
            nodes.append((at, []))
        nodes[-1][1].append(("- " if leaves else "+ ") + term)
        has_left, today = leaves, day
    return nodes


def solve(text: str) -> Set[str]:
    """The names of the binaries that cbc sets to 1."""
    with tempfile.TemporaryDirectory() as folder:
        model, found = Path(folder, "model.lp"), Path(folder, "found")
        model.write_text(text)
        subprocess.run(["cbc", model, "sec", "120", "ratio", "0.01", "solve", "solution", found], check=True, stdout=subprocess.DEVNULL)
        lines = found.read_text().splitlines()
    return {words[1] for words in map(str.split, lines[1:]) if words[1].startswith("x") and float(words[2]) > 0.5}


def write(folder: Place, day_start: str) -> int:
    """Writes the plan of a folder, and gives its cost."""
    legs, fleets, pairs, limits = pairs_of(folder, minute_of(day_start))
    text, name = program(legs, fleets, pairs, limits)
    chosen = solve(text)
    flown = {leg: (fleet, shift) for (leg, fleet, shift), it in name.items() if it in chosen}
    header = SHIFTED if "--windows" in flags_of(folder) else SHIFTED[:2]
    put(folder, {"plan.csv": [(leg["flight"], *flown[number])[: len(header)] for number, leg in enumerate(legs)]}, plan=header)
    return sum(pairs[key][3] for key, it in name.items() if it in chosen)


def main() -> None:
    """Writes the plan of the words' folder, and prints its cost."""
    print(write(sys.argv[1], sys.argv[2] if len(sys.argv) > 2 else "03:00"))


if __name__ == "__main__":
    main()
