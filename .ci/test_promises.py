"""Each clause, law, record and function that docs/promises.md names stands in the crate under whose heading it is named.

Below `## Crate by crate` a heading `### NAME, NAME` names crates of crates.txt, or modules of theirs that have a folder, and a line
`- CALLS: SAYS` has calls, and what they say with its clauses in parentheses.

- A name among the calls is a function or a type of src/. `laws::f` stands in src/laws.rt, `T::f` in an impl or a trait of T, and so
  does a name behind it, where there is one.
- A name in parentheses is a clause of one of the calls (`ensures NAME`), a ghost field of its type, or with a capital a record or
  another definition of specs/; `a`, `b` of `R` are fields of the record R, and `c::R` is one of another crate.
- Of each call a clause is named, or it has one without a name, or the line says `one clause each`.
- Any other name (with a capital, an underscore, a slash or `::`) is a crate, a word of the crate, or a path there or at the top.

Elsewhere in the page such a name is a crate, a word of some crate, or a path. The page names each crate of crates.txt."""

import re
from functools import lru_cache
from pathlib import Path
from typing import Dict, List, Optional, Set, Tuple

import pytest

TOP = Path(__file__).resolve().parent.parent
PAGE = TOP / "docs" / "promises.md"
PART = "Crate by crate"
NAME = re.compile(r"`([^`]+)`")
CALL = re.compile(r"- ((?:`[^`]+`(?:, )?)+): (.*)")
GROUP = re.compile(r"\(((?:`[\w:]+`|, |; | of )+)\)")
WORD = re.compile(r"[A-Za-z0-9_]+")
BLOCK = re.compile(r"(?:pub(?:\([a-z]+\))? )?(impl|trait|struct|enum|type)\b(.*)")
FUNCTION = re.compile(r"\s*(?:pub(?:\([a-z]+\))? )?(?:const )?fn (\w+)")
CLAUSE = re.compile(r"\bensures (?:(\w+) )?\{")
GHOST = re.compile(r"\s+(?:pub )?ghost (?!use )(\w+)\s*[:=]")
DEFINITION = re.compile(r"(?:\w+ )*pub (?!mod )(?:(?:record|data) )?(\w+)")
FIELD = re.compile(r"\s+pub (\w+) :")


class Function:
    """A function of a crate: its module, the type or trait that it belongs to, and its clauses (None: one without a name)."""

    def __init__(self, module: str, owner: Optional[str], name: str) -> None:
        self.module, self.owner, self.name = module, owner, name
        self.clauses: Set[str] = set()


class Crate:
    """The names of a crate, or of a module that has a folder of its own there."""

    def __init__(self, name: str, folder: Path, module: str = "") -> None:
        self.name, self.folder = name, folder
        self.functions: List[Function] = []
        self.types: Set[str] = set()
        self.ghosts: Set[Tuple[Optional[str], str]] = set()
        self.definitions: Set[str] = set()
        self.fields: Dict[str, Set[str]] = {}
        self.words: Set[str] = set()
        below = f"{module}/**" if module else "**"
        top = [self.folder / "src" / f"{module}.rt"] if module else []
        for file in [*top, *self.folder.glob(f"src/{below}/*.rt"), *self.folder.glob(f"specs/{below}/*.antt")]:
            text = file.read_text(encoding="utf-8")
            self.words.update(WORD.findall(text), [file.stem])
            if file.suffix == ".rt":
                self.read_source(file.stem, text)
            else:
                self.read_definitions(text)

    def read_source(self, module: str, text: str) -> None:
        """Notes the names of a file of src/."""
        owner: Optional[str] = None
        function: Optional[Function] = None
        for line in text.splitlines():
            line = line.partition("//")[0]
            block = BLOCK.match(line)
            if block:
                # The type is the first word behind `for`, or behind the parameters of the impl.
                own: str = WORD.findall(re.sub(r"^<[^<>]*(<[^<>]*>[^<>]*)*>", "", block[2]).rpartition(" for ")[2])[0]
                owner = own
                self.types.add(own)
            elif line.startswith("}"):
                owner = None
            started = FUNCTION.match(line)
            if started:
                function = Function(module, owner, started[1])
                self.functions.append(function)
            if function:
                function.clauses.update(clause[1] for clause in CLAUSE.finditer(line))
            ghost = GHOST.match(line)
            if ghost:
                self.ghosts.add((owner, ghost[1]))

    def read_definitions(self, text: str) -> None:
        """Notes the names of a file of specs/."""
        record = ""
        for line in text.splitlines():
            defined, field = DEFINITION.match(line), FIELD.match(line)
            if defined:
                record = defined[1]
                self.definitions.add(record)
            elif field:
                self.fields.setdefault(record, set()).add(field[1])

    def called(self, name: str, before: Optional[str]) -> List[Function]:
        """Returns the functions that a name among calls may be, where `before` is the type or module that was named last."""
        head, _, last = name.rpartition("::")
        named = [f for f in self.functions if f.name == last]
        for owner in (head,) if head else (before, None):
            found = [f for f in named if owner in (f.owner, f.module)]
            if found:
                return found
        return [] if head else named


# A name among the calls of a line, and the functions that it may be.
Functions = List[Tuple[str, List[Function]]]


@lru_cache(maxsize=None)
def listed() -> List[str]:
    """Returns the crates of crates.txt."""
    return re.findall(r"(?m)^(\w+):", (TOP / "crates.txt").read_text(encoding="utf-8"))


@lru_cache(maxsize=None)
def crates() -> Dict[str, Crate]:
    """Returns the crates of crates.txt by their names, and their modules that have a folder."""
    folders = {name: TOP / "crates" / name for name in listed()}
    modules = [(folder, it.stem) for folder in folders.values() for it in sorted(folder.glob("src/*.rt"))]
    parts = {name: Crate(name, at, name) for at, name in modules if any((at / part / name).is_dir() for part in ("src", "specs"))}
    return {**parts, **{name: Crate(name, folder) for name, folder in folders.items()}}


@lru_cache(maxsize=None)
def all_words() -> Set[str]:
    """Returns the words of all crates."""
    return set().union(*(crate.words for crate in crates().values()))


class Section:
    """A heading of the page and the lines below it up to the next one, and whether they stand below `## Crate by crate`."""

    def __init__(self, number: int, heading: str, is_of_crates: bool) -> None:
        self.number, self.heading, self.is_of_crates = number, heading, is_of_crates
        self.lines: List[str] = []


def sections() -> List[Section]:
    """Returns the sections of the page."""
    found, part = [Section(1, "", False)], ""
    for number, line in enumerate(PAGE.read_text(encoding="utf-8").splitlines(), 1):
        heading = re.match(r"(#+) (.*)", line)
        if heading:
            part = heading[2] if len(heading[1]) < 3 else part
            found.append(Section(number, heading[2], part == PART and len(heading[1]) == 3))
        else:
            found[-1].lines.append(line)
    return found


class Page:
    """A reading of a section, and what doesn't stand."""

    def __init__(self) -> None:
        self.crates, self.all_words = crates(), all_words()
        self.here: List[Crate] = []
        self.line = 0
        self.lacks: List[str] = []

    def want(self, stands: object, told: str) -> None:
        """Notes what doesn't stand."""
        if not stands:
            self.lacks.append(f"docs/promises.md:{self.line}: {told}")

    def where(self) -> str:
        """Returns the crates under whose heading a line stands."""
        return " or ".join(crate.name for crate in self.here) or "any crate"

    def is_path(self, name: str) -> bool:
        """Returns whether a name is one of a file or a folder."""
        folders = [TOP, TOP / "crates", *(crate.folder for crate in self.here or self.crates.values())]
        return any(next(folder.glob(name), None) for folder in folders)

    def read_words(self, text: str) -> None:
        """Wants each name of a text that is no clause to be a crate, a word or a path."""
        for name in NAME.findall(text):
            if "/" in name:
                self.want(re.search(r"[ <]|^/", name) or self.is_path(name), f"`{name}` is no path")
            elif re.fullmatch(r"[\w:]+(\.rt|\.antt)?", name) and re.search(r"[A-Z_]|::|\.", name):
                crate, _, rest = name.partition("::")
                words = self.all_words
                if crate in self.crates:
                    words, name = self.crates[crate].words, rest or crate
                elif self.here:
                    words = set().union(*(crate.words for crate in self.here))
                parts = re.sub(r"\.(rt|antt)$", "", name).split("::")
                stands = crate in self.crates and not rest or all(part in words for part in parts)
                self.want(stands, f"`{name}` isn't in {crate if crate in self.crates else self.where()}")

    def read_call(self, calls: str, said: str) -> None:
        """Reads a line `- CALLS: SAYS`."""
        before, functions = None, []
        owners: Set[str] = set()
        named: Set[str] = set()
        for name in NAME.findall(calls):
            found = [f for crate in self.here for f in crate.called(name, before)]
            kinds = [crate for crate in self.here if name in crate.types]
            self.want(found or kinds, f"`{name}` is no function and no type of {self.where()}")
            if found:
                functions.append((name, found))
                owners.update(f.owner for f in found if f.owner)
            else:
                owners.add(name)
            before = name.rpartition("::")[0] or before
        for group in GROUP.findall(said):
            for piece in group.split("; "):
                named.update(self.read_clauses(piece, functions, owners))
        for name, found in functions:
            told = any(None in f.clauses or f.clauses & named or f.clauses and "one clause each" in said for f in found)
            self.want(told, f"`{name}` has no clause without a name, and none of its own is named")
        rest = GROUP.sub("", said)
        self.want("(`" not in rest, "names in parentheses are divided by `, `, ` of ` and `; ` alone")
        self.read_words(rest)

    def read_clauses(self, piece: str, functions: Functions, owners: Set[str]) -> List[str]:
        """Wants the clauses to stand that a part of a parenthesis names, and returns them."""
        listed, _, record = piece.partition(" of ")
        names = NAME.findall(listed)
        other, _, last = record.strip("`").rpartition("::")
        for name in names:
            if record:
                crates = [self.crates[other]] if other in self.crates else self.here
                stands = any(name in crate.fields.get(last, ()) for crate in crates)
                self.want(stands, f"`{name}` is no field of {record} in {self.where()}")
            else:
                stands = any(name in f.clauses for _, found in functions for f in found)
                stands = stands or any((owner, name) in crate.ghosts for crate in self.here for owner in owners)
                stands = stands or name[0].isupper() and any(name in crate.definitions for crate in self.here)
                self.want(stands, f"`{name}` is no clause of these calls, and no definition of {self.where()}")
        return names

    def read(self, section: Section) -> List[str]:
        """Reads a section, and returns what doesn't stand."""
        self.line = section.number
        if section.is_of_crates:
            names = section.heading.split(", ")
            for name in names:
                self.want(name in self.crates, f"`{name}` is no crate of crates.txt, and no module that has a folder")
            self.here = [self.crates[name] for name in names if name in self.crates]
        for self.line, line in enumerate(section.lines, section.number + bool(section.heading)):
            call = CALL.fullmatch(line)
            if self.here and line.startswith("- "):
                self.want(call, "this is no line `- CALLS: SAYS`")
                if call:
                    self.read_call(call[1], call[2])
            else:
                self.read_words(line)
        return self.lacks


@pytest.mark.parametrize("section", [pytest.param(it, id=it.heading or "the beginning") for it in sections()])
def test_section(section: Section) -> None:
    """Each name stands in the crates under whose heading it is named."""
    assert not Page().read(section)


def test_crates() -> None:
    """The page names each crate, and calls of some."""
    text, own = PAGE.read_text(encoding="utf-8"), [it for it in sections() if it.is_of_crates]
    assert not [name for name in listed() if not re.search(rf"`{name}\b|^### (\w+, )*{name}\b", text, re.M)]
    assert any(CALL.fullmatch(line) for section in own for line in section.lines)
