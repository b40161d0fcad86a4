"""Scenarios with days, room at night, windows and optional legs, in runs of tools/scenarios."""

import json
import random
import shutil
import sys
from pathlib import Path
from typing import Dict, Iterator, List, Mapping, Sequence, Tuple, Union
from scenario_runs import HUB_DAY, Record, Run, Tries
from shared import BENCH, EXAMPLES, TABLES, put, rows, run as ran

WEEK, BOTH = "--period 7 --days 4", "--windows --optional"
SIZES = {"less": "-1", "more": "+1"}
FIGURES = ["demand.csv", "types.csv", "fuel.csv", "fees.csv"]
# Scenarios of examples: the example, the words, the tables that are read beside the five, changes, and the least cost, or how it ends.
KNOWN: Dict[str, Tuple[str, str, List[str], str, Union[int, str]]] = {
    "windows": ("re-timing", "--windows", ["windows.csv"], "", 15000),
    "windows-by-changes": ("re-timing", "", [], "window FP2 -5 100; window FP3 5 100", 15000),
    "no-windows": ("re-timing", "", [], "", "infeasible"),
    "windows-and-two-more": ("re-timing", "--windows", ["windows.csv"], "window FP3 20 60; window FP4 20 30", 14890),
    "ferries": ("ferry", "--optional", ["optional.csv"], "", 17300),
    "ferries-by-changes": ("ferry", "", [], "optional FF1 0; optional FF2 0", 17300),
    "no-ferries": ("ferry", "", [], "", "infeasible"),
    "one-ferry": ("ferry", "--optional", ["optional.csv"], "drop-leg FF1", 17300),
    "charter": ("optional-flight", "--optional", ["optional.csv"], "", 26500),
    "room-for-one": ("night-parking", "--day-start 00:00", [], "", 500),
    "room-for-all": ("night-parking", "--day-start 00:00", [], "parking AAA -", 400),
    "room-for-none": ("night-parking", "--day-start 00:00", [], "parking AAA 0; parking BBB 0", "infeasible"),
    "two-days": ("two-days", "--period 2 --day-start 00:00", [], "", 200),
    "days-by-words-alone": ("re-timing", "--period 2 --windows", ["windows.csv"], "", "refused"),
    "no-days": ("two-days", "--day-start 00:00", [], "", "refused"),
    "week": ("week", WEEK, [], "", 1986460),
    "week-with-room-for-two": ("week", WEEK, [], "parking HUB 2", 1987250),
    "sunday": ("week", "", [], "only-day 7", 257940),
    "demand": ("demand", "", FIGURES, "demand *1", 30523),
    "less-demand": ("demand", "", FIGURES, "demand *0.8", 29632),
    "no-spill": ("demand", "", FIGURES, "demand *0", 28270),
    "dearer-fuel": ("demand", "", FIGURES, "fuel *1.5", 35543),
}
# Those of which the tables are refused.
REFUSED = ["days-by-words-alone", "no-days"]
# How many legs depart at another time, and aren't flown, where some may.
COUNTS = {"windows": ("2", ""), "windows-by-changes": ("2", ""), "ferries": ("", "1"), "charter": ("", "2"), "week": ("", "")}


def kinds(tries: Tries, scratch: Path, _: int) -> None:
    """Tries scenarios with all that tables can have."""
    known(tries, scratch)
    sizes(tries, scratch)


def lay(place: Path, base: Path, more: Sequence[str] = ()) -> None:
    """Copies the tables of a folder, and those of its others that are named."""
    place.mkdir(parents=True)
    for it in (*TABLES, *more):
        shutil.copyfile(base / it, place / it)


def known(tries: Tries, scratch: Path) -> None:
    """Scenarios of examples come out as the examples say."""
    run = Run(scratch / "known", HUB_DAY, laid(scratch / "known"))
    status = run.on(2)
    is_told = [it["scenario"] for it in run.summary()][: len(REFUSED) + 1] == [*REFUSED, next(iter(KNOWN))]
    what = "scenarios of examples with days, room at night, windows, optional legs and figures; those that are refused stand first"
    tries(what, status != 0 and is_told)
    found = {it["scenario"]: it for it in run.summary()}
    for name, (_, words, _, changes, wanted) in KNOWN.items():
        came = found[name]["cost"] or found[name]["outcome"]
        tries(" ".join(it for it in (f"{name}:", words, changes) if it), came == str(wanted), came)
    counts = {it: (found[it]["moved"], found[it]["left out"]) for it in COUNTS}
    tries("how many legs are moved, and left out", counts == COUNTS)
    tries("each plan is judged by the reference", not wrong_plans(run))


def laid(folder: Path) -> List[Record]:
    """Lays the tables of the known scenarios into folders, and returns their records."""
    for name, (example, _, more, _, _) in KNOWN.items():
        lay(folder / name, EXAMPLES / example, more)
    return [(name, words, name, changes) for name, (_, words, _, changes, _) in KNOWN.items()]


def schedules(scratch: Path) -> Iterator[Tuple[Path, str, str]]:
    """Yields schedules whose fleets are changed, with their words and a change: a week, and a week and a day with windows, optional legs
    and less room at night."""
    yield EXAMPLES / "week", WEEK, ""
    for name, base, words, change in (("wide-week", "week", WEEK, "parking HUB 2"), ("wide-day", "hub-day", "", "parking ZRH 7")):
        lay(scratch / name, EXAMPLES / base)
        widen(scratch / name)
        yield scratch / name, f"{words} {BOTH}".strip(), change


def widen(folder: Path) -> None:
    """Adds windows and optional legs to a schedule, drawn from a number."""
    draw = random.Random(1)
    costs: Dict[str, List[int]] = {}
    for it in rows(folder, "costs.csv"):
        costs.setdefault(it["flight"], []).append(int(it["cost"]))
    windows = [(it, shift, draw.randrange(-100, 300)) for it in costs for shift in (-15, 10) if draw.random() < 0.5]
    optional = [(it, max(prices) - draw.randrange(2000)) for it, prices in costs.items() if draw.random() < 0.2]
    put(folder, {"windows.csv": windows, "optional.csv": optional})


def sizes(tries: Tries, scratch: Path) -> None:
    """What a proof says of one aircraft less or more is no more than what a solve with so many finds."""
    for base, words, change in schedules(scratch):
        fleets = [it["fleet"] for it in rows(base, "fleets.csv")]
        changed = {(fleet, size): f"{fleet}-{size}" for fleet in fleets for size in SIZES}
        asked = [("as-is", words, "", change)]
        asked += [(name, words, "", f"{change}; aircraft {fleet} {SIZES[size]}") for (fleet, size), name in changed.items()]
        run = Run(scratch / f"run-{base.name}", base, asked)
        tries(f"{base.name}: as it is, and each fleet one aircraft less and more", run.on(2) == 0)
        base_row = run.row("as-is")
        wrong = [name for (fleet, size), name in changed.items() if not bounds(base_row[f"one {size} {fleet}"], run.row(name))]
        tries(f"{base.name}: no solve finds less than whatif tells", not wrong, told(base_row, run, changed))
        tries(f"{base.name}: each plan is judged by the reference", not wrong_plans(run))


def bounds(text: str, row: Mapping[str, str]) -> bool:
    """Returns whether a bound that was told holds for the scenario of that size."""
    if text == "infeasible" or row["outcome"] == "infeasible":
        return row["outcome"] == "infeasible"
    return bool(text) and int(text) <= int(row["cost"])


def told(base_row: Mapping[str, str], run: Run, changed: Mapping[Tuple[str, str], str]) -> str:
    """Returns the bounds of a proof beside what solves found."""
    cells = []
    for (fleet, size), name in changed.items():
        row = run.row(name)
        cells.append(f"{name} {base_row[f'one {size} {fleet}']} <= {row['cost'] or row['outcome']}")
    moved = " ".join(f"{base_row[it]} {it}" for it in ("moved", "left out") if base_row.get(it))
    return ", ".join([*cells, *([moved] if moved else [])])


def wrong_plans(run: Run) -> List[str]:
    """Returns the scenarios whose plan, by the reference, isn't legal at its cost."""
    planned = {it["scenario"]: f"legal: cost {it['cost']}\n" for it in run.summary() if it["cost"]}
    return [name for name, legal in planned.items() if not judged(run.place(name, "solved")).startswith(legal)]


def judged(folder: Path) -> str:
    """Returns what the reference says of the plan of a scenario."""
    reading = json.loads((folder / "answer.json").read_text(encoding="utf-8"))["reading"]
    value = {name: word for name, word in zip(reading, reading[1:]) if not word.startswith("--")}
    flags = [it for it in BOTH.split() if it in reading]
    words = [folder, value.get("--day-start", "03:00"), value.get("--period", "1"), *flags]
    return ran(sys.executable, BENCH / "judge_reference.py", *words).text
