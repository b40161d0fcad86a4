"""What the scripts of this folder share: the package of the tools, the built program, tables, and runs with their seconds."""

import csv
import os
import sys
from pathlib import Path
from typing import Any, Callable, Dict, Iterable, List, Mapping, Optional, Sequence, Union

TOP = Path(__file__).resolve().parent.parent
BENCH = TOP / "bench"
EXAMPLES = TOP / "examples"
sys.path.append(str(TOP / "tools"))

from fleetplan.errors import Answered
from fleetplan.files import write_all
from fleetplan.program import PROGRAM, Ran, Runner
from fleetplan.records import text_of
from fleetplan.tables import ASKED, HEADERS, TABLES, Header

Place = Union[str, Path]
BUILT = Path(PROGRAM)
# The flags by which the program reads further tables.
FLAGGED = {f"--{option}": name for option, name in ASKED.items()}
DAY_START = "03:00"


def program_of(word: Optional[Place] = None) -> Path:
    """Returns the program that a word names, or else the built one, and ends where it isn't there."""
    program = Path(word or BUILT).resolve()
    if not program.exists():
        sys.exit(f"{program} is not there: run ./fleetplan first, which builds it")
    return program


def run(*words: object, **how: Any) -> Ran:
    """Runs a command, and returns what it came to. `how` are words of a Runner."""
    return Runner(str(words[0]), **how).run(*words[1:])


def answer(call: Callable[..., object], *words: object, **more: object) -> object:
    """Returns what a call of the package answers; another answer as its status and its text."""
    try:
        return call(*words, **more)
    except Answered as other:
        return other.status, str(other)


def told(cost: Optional[int]) -> str:
    """Returns a cost or a bound in words."""
    return "none" if cost is None else str(cost)


def rows(folder: Place, name: str) -> List[Dict[str, str]]:
    """Returns the records of a table, by the names of its columns."""
    with open(Path(folder, name), newline="", encoding="utf-8") as file:
        return list(csv.DictReader(file))


def put(folder: Place, tables: Mapping[str, Iterable[Sequence[object]]], **headers: Header) -> None:
    """Writes tables of their records. A header that isn't the usual one is given by the table's name without its ending."""
    os.makedirs(folder, exist_ok=True)
    header = {name: headers.get(name.partition(".")[0], HEADERS[name]) for name in tables}
    write_all(str(folder), {name: text_of(header[name], records) for name, records in tables.items()})


def copy_tables(folder: Place, to: Place) -> None:
    """Copies the tables of a schedule that stand in a folder, those that flags have read too."""
    for name in (*TABLES, *FLAGGED.values()):
        if Path(folder, name).exists():
            Path(to, name).write_bytes(Path(folder, name).read_bytes())


def write_by_words(doc: Optional[str], most: int, write: Callable[..., None]) -> None:
    """Has a schedule written by the words FOLDER LEGS FLEETS, and numbers up to so many words in all; else shows how that is called."""
    if not 4 <= len(sys.argv) <= most + 1:
        sys.exit(doc)
    write(sys.argv[1], *map(int, sys.argv[2:]))
