"""Calls of tools/costs within this process, and what stands in folders."""

import csv
from pathlib import Path
from typing import Dict, List, NamedTuple, Tuple

from ssim_tests.trying import TOP, heard, load_tool

EXAMPLE = TOP / "examples" / "demand"
WRITTEN = ("costs-parts.csv", "costs.html", "costs.csv")
tool = load_tool("costs")


class Answer(NamedTuple):
    """What a call answered: its status, and the lines on standard error without the tool's name."""

    status: int
    told: List[str]


def call(*words: object) -> Answer:
    """Calls the tool."""
    status, told = heard(tool, words)
    return Answer(status, [it[len("costs: ") :] if it.startswith("costs: ") else it for it in told.splitlines()])


def standing(folder: Path) -> Dict[str, bytes]:
    """Returns the bytes of each file of a folder."""
    return {it.name: it.read_bytes() for it in folder.iterdir() if it.is_file()}


def costs(folder: Path) -> Dict[str, int]:
    """Returns the cost of each pair by costs.csv."""
    _, *rows = csv.reader((folder / "costs.csv").read_text(encoding="ascii").splitlines())
    return {f"{flight},{fleet}": int(cost) for flight, fleet, cost in rows}


def parts(folder: Path) -> Dict[Tuple[str, str], Dict[str, str]]:
    """Returns the record of each pair in costs-parts.csv by its headings."""
    rows = csv.DictReader((folder / "costs-parts.csv").read_text(encoding="ascii").splitlines())
    return {(it["flight"], it["fleet"]): dict(it) for it in rows}
