"""Names of definitions that stand in the specs of two crates or more."""

import re
from pathlib import Path
from typing import Dict, List, Set

from defined import definitions_in

LINE = re.compile(r"(\S+): (\w+(?:, \w+)+)")


def crates_in(top: Path) -> List[str]:
    """Returns the crates of crates.txt, from below."""
    return re.findall(r"^(\w+).*:", (top / "crates.txt").read_text(encoding="utf-8"), re.M)


def shared_names(top: Path) -> Dict[str, List[str]]:
    """Returns the names that definitions of two crates or more have, each with these crates, from below."""
    crates: Dict[str, List[str]] = {}
    for crate in crates_in(top):
        files = sorted((top / "crates" / crate / "specs").rglob("*.antt"))
        names: Set[str] = set().union(*map(definitions_in, files))
        for name in names:
            crates.setdefault(name, []).append(crate)
    return {name: crates[name] for name in sorted(crates) if len(crates[name]) > 1}


def told(names: Dict[str, List[str]]) -> str:
    """Returns a line for each name, with its crates."""
    return "".join(f"{name}: {', '.join(crates)}\n" for name, crates in names.items())


def read(file: Path) -> Dict[str, List[str]]:
    """Returns the names of a file of such lines. What begins with a number sign is left out."""
    lines = [it for it in file.read_text(encoding="utf-8").splitlines() if not it.startswith("#")]
    found = [LINE.fullmatch(it) for it in lines]
    if not all(found):
        raise ValueError(f"{file.name} has a line that isn't `NAME: CRATE, CRATE ..`")
    return {it[1]: it[2].split(", ") for it in found if it}


def differences(names: Dict[str, List[str]], listed: Dict[str, List[str]]) -> List[str]:
    """Returns what is new beside a list, and what has gone: a name, or a crate of one."""
    new = [f"{name}: {it} is new" for name, crates in names.items() for it in crates if it not in listed.get(name, [])]
    gone = [f"{name}: {it} has gone, so the list gets shorter" for name, crates in listed.items() for it in crates if it not in names.get(name, [])]
    return new + gone
