"""What the program is made of: the sums of its sources and its own, the note beside it, and the released program."""

import hashlib
import os
import re
import subprocess
from pathlib import Path
from typing import Dict, Iterator, List, NamedTuple, Optional, Set

from fleetplan.files import write
from fleetplan.program import Runner

NAME = "fleetplan"
LIST, HANDLES = "crates.txt", "HANDLES"
PARTS = ("src", "specs", "proofs")
# How the note calls a program that was built in this clone. A released one is called by its version.
BUILT = "built"
SECONDS = 20


class Places:
    """Where things stand below the top of a clone."""

    def __init__(self, top: Path) -> None:
        self.top = top
        self.crates = top / "crates"
        self.out = self.crates / NAME / "out"
        self.program = self.out / NAME
        self.note = self.out / "note"
        self.kit = self.out / "kit"
        self.release = top / "release"
        self.released = self.release / NAME
        self.manifest = self.release / "MANIFEST"


# The crates of the program.


def uses_in(text: str) -> Dict[str, List[str]]:
    """Returns, of each crate that a crates.txt lists, the crates of the repository right below it."""
    uses: Dict[str, List[str]] = {}
    for line in text.splitlines():
        kind, _, below = line.partition("#")[0].partition(":")
        if kind.split():
            uses[kind.split()[0]] = below.replace(",", " ").split()
    return {name: [it for it in below if it in uses] for name, below in uses.items()}


def all_below(uses: Dict[str, List[str]], name: str) -> Set[str]:
    """Returns the crates that the crate stands on, without itself."""
    return {it for below in uses.get(name, ()) for it in (below, *all_below(uses, below))}


def crates_of(places: Places) -> Set[str]:
    """Returns the crates of the program, with its own."""
    return {NAME, *all_below(uses_in((places.top / LIST).read_text(encoding="utf-8")), NAME)}


def files_of(places: Places, crate: str) -> Iterator[Path]:
    """Yields the files that a proof of the crate reads."""
    for part in PARTS:
        for folder, _, files in os.walk(places.crates / crate / part, followlinks=True):
            yield from (Path(folder, it) for it in files)


# Sums.


def sum_of(file: Path) -> Optional[str]:
    """Returns the sha256 of a file's bytes, or None where it can't be read."""
    try:
        return hashlib.sha256(file.read_bytes()).hexdigest()
    except OSError:
        return None


def source_sum(places: Places) -> str:
    """Returns the sha256 of what `sha256sum` prints of the sources of the program's crates, in the order of their names' bytes: of
    crates.txt, HANDLES, and what the proofs read."""
    files = [places.top / LIST, places.top / HANDLES, *(file for crate in crates_of(places) for file in files_of(places, crate))]
    names = sorted((os.fsencode(file.relative_to(places.top)), file) for file in files)
    lines = ((sum_of(file) or "").encode() + b"  " + name + b"\n" for name, file in names)
    return hashlib.sha256(b"".join(lines)).hexdigest()


# Files of lines `NAME: VALUE`.


def read_lines(file: Path) -> Dict[str, str]:
    """Returns the values of a file by their names, none where it can't be read."""
    try:
        text = file.read_text(encoding="ascii")
    except (OSError, UnicodeDecodeError):
        return {}
    return dict(re.findall(r"^(\w+): (.*)$", text, re.MULTILINE))


def write_lines(file: Path, values: Dict[str, str]) -> None:
    """Writes values by their names."""
    write(str(file), "".join(f"{name}: {value}\n" for name, value in values.items()))


def put_program(file: Path, data: bytes) -> None:
    """Writes a program, whole or not at all."""
    file.parent.mkdir(parents=True, exist_ok=True)
    write(str(file), data)
    file.chmod(0o755)


# The note.


class Note(NamedTuple):
    """What is noted beside the program: the sums of its sources and its own, and how it came there."""

    sources: str
    program: str
    made: str


def read_note(places: Places) -> Optional[Note]:
    """Returns the note, where it is whole."""
    found = read_lines(places.note)
    return Note(**found) if found.keys() == set(Note._fields) else None


def write_note(places: Places, sources: str, made: str) -> None:
    """Notes that the program which stands there is of these sources."""
    write_lines(places.note, Note(sources, sum_of(places.program) or "", made)._asdict())


def is_noted(places: Places, sources: str) -> Optional[Note]:
    """Returns the note, where it is of these sources and of the program that stands there."""
    note = read_note(places)
    is_whole = note is not None and os.access(places.program, os.X_OK) and note.program == sum_of(places.program)
    return note if note and is_whole and note.sources == sources else None


# The release.


class Manifest(NamedTuple):
    """What is told of the released program: its version, the commit of its sources, the kit that proved it, and the sums."""

    version: str
    commit: str
    kit: str
    program: str
    sources: str


def read_manifest(places: Places) -> Optional[Manifest]:
    """Returns what is told of the released program, where that is whole."""
    found = read_lines(places.manifest)
    return Manifest(**found) if found.keys() == set(Manifest._fields) else None


def does_run(program: Path) -> bool:
    """Returns whether the processor and the system run a program: without words it ends with 2, for that is no call."""
    try:
        ran = Runner(program, SECONDS).run()
    except (OSError, subprocess.SubprocessError):
        return False
    return ran.status == 2 and ran.text.startswith("usage: ")
