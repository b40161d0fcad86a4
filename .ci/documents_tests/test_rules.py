"""docs/rules.md has a line for each number and each text that the program prints, and each name there stands in its file.

- What is told as `NAME, NAME` in `PATH` stands: in a file of specs/ a definition, in one of src/ a function.
- A section has one line `Numbers:`, `Names:` or `Words:`, and behind it the laws and definitions where its numbers and its letters stand. It
  has a line for each of these, and no other: of a kind of fault of a table one for each table that may have it.
- Each law of kinds or statuses and each definition with letters of the crates that print is named by one section.
- A line has a definition of specs/ and a function of src/. In a section of statuses or of kinds each definition says the number's name, and
  each definition that says a kind's name stands on a line of the kind.
"""

import re
from pathlib import Path
from typing import Dict, FrozenSet, Iterator, List, Tuple

import pytest
from defined import CRATES, LITERAL, Named, clauses_of, definitions_in, functions_in, named_in, numbers_in, words_in

TOP = Path(__file__).resolve().parent.parent.parent
PAGE = TOP / "docs" / "rules.md"
SOURCE = re.compile(r"(Numbers|Names|Words): .*")
ROW = re.compile(r"\| `([^`]*)` \| (?:(each|`\w+\.csv`) \| )?([^|]*) \| ([^|]*) \|")
# The crates that print, and of their definitions the files whose letters are keys and records of files.
PRINTING = ("fleet_cli", "folder_answers", "plan_report", "rotation_report", "due_report")
OF_FILES = ("Json", "RotationRecords")
LAW = re.compile(r"(kinds|statuses)_in_numbers")


class Section:
    """A section of the page: where its numbers or letters stand, and its lines, each with the definitions and functions there."""

    def __init__(self, heading: str, lines: List[str]) -> None:
        sources = [it for it in lines if SOURCE.fullmatch(it)]
        self.heading, self.kind = heading, sources[0].partition(":")[0] if len(sources) == 1 else "no source, or several"
        self.sources = [it for line in sources for it in named_in(line)]
        self.named = [it for line in lines for it in named_in(line)]
        rows = [it for it in map(ROW.fullmatch, lines) if it]
        self.rows = [(it[1].replace("\\|", "|"), it[2], named_in(it[3]), named_in(it[4])) for it in rows]
        self.unread = [it for it in lines if it.startswith("| `") and not ROW.fullmatch(it.replace("\\|", "/"))]
        self.rows += [row for it in lines if "\\|" in it for row in self.barred(it)]

    def barred(self, line: str) -> Iterator[Tuple[str, str, List[Named], List[Named]]]:
        """Yields a line whose text has bars."""
        found = ROW.fullmatch(line.replace("\\|", "/"))
        if found:
            yield line.split("`")[1].replace("\\|", "|"), "", named_in(found[3]), named_in(found[4])

    def numbers(self) -> List[Tuple[str, str, str]]:
        """Returns what the section's laws say to be numbers: the crate, the name and the number."""
        laws = [it for it in self.sources if it.path.endswith(".rt")]
        return [(it.path.partition("/")[0], name.split()[-1], number) for it in laws for name, number in numbers_in(it.text)]

    def wanted(self) -> FrozenSet[str]:
        """Returns the numbers or texts of the section's sources."""
        found = [number for _, _, number in self.numbers()]
        for it in self.sources:
            if self.kind == "Words":
                found += words_in(it.name, it.text)
            elif self.kind == "Names":
                found += LITERAL.findall(it.text)
            elif it.path.endswith(".antt"):
                found += [number for _, number in clauses_of(it.name, it.text)]
        return frozenset(found)


def sections() -> Iterator[Section]:
    """Yields the sections of the page."""
    for part in re.split(r"^## ", PAGE.read_text(encoding="utf-8"), flags=re.M)[1:]:
        heading, *lines = part.splitlines()
        yield Section(heading, lines)


SECTIONS = {it.heading: it for it in sections()}


@pytest.mark.parametrize("heading", SECTIONS)
def test_names(heading: str) -> None:
    """Each name stands in its file."""
    section = SECTIONS[heading]
    assert section.named and not [f"{it.name} in {it.path}" for it in section.named if not it.text]
    rows = [text for text, _, defined, called in section.rows if not stand_in(defined, "specs") or not stand_in(called, "src")]
    assert not rows + section.unread, "they have no definition, or no function"


def stand_in(named: List[Named], folder: str) -> bool:
    """Returns whether there are names, and all of them stand in a folder of crates."""
    return bool(named) and all(it.path.split("/")[1] == folder for it in named)


@pytest.mark.parametrize("heading", SECTIONS)
def test_complete(heading: str) -> None:
    """Each number and each text has its line."""
    section = SECTIONS[heading]
    lines = [(text, table) for text, table, _, _ in section.rows]
    assert section.wanted() and {text for text, _ in lines} == section.wanted()
    assert len(set(lines)) == len(lines) or any(table for _, table in lines), "a line stands twice"


def printing() -> Iterator[Named]:
    """Yields each law of kinds and statuses, and each definition with letters that are printed."""
    for file in sorted(CRATES.glob("*/src/**/laws.rt")):
        yield from (Named(name, str(file.relative_to(CRATES))) for name in functions_in(file) if LAW.fullmatch(name))
    for file in sorted(it for crate in PRINTING for it in CRATES.glob(f"{crate}/specs/**/*.antt") if it.stem not in OF_FILES):
        place = str(file.relative_to(CRATES))
        yield from (Named(name, place) for name, text in definitions_in(file).items() if any(words_in(name, text)))


def test_each_source() -> None:
    """Each such law and definition is named by one section, and the checker's rules are."""
    found = [it for section in SECTIONS.values() for it in section.sources if section.kind != "Names"]
    wanted = [*printing(), Named("rule_number", "cert_check/specs/Rules.antt")]
    assert sorted(found) == sorted(wanted)


NUMBERED = {heading: section for heading, section in SECTIONS.items() if section.numbers()}


@pytest.mark.parametrize("heading", NUMBERED)
def test_definitions_say_the_number(heading: str) -> None:
    """Each definition on the line of a number says its name."""
    section = NUMBERED[heading]
    names: Dict[str, List[str]] = {}
    for _, name, number in section.numbers():
        names.setdefault(number, []).append(name)
    silent = [(text, it) for text, _, defined, _ in section.rows for it in defined if not says(it.text, names[text])]
    assert not silent


def says(text: str, names: List[str]) -> bool:
    """Returns whether a text has one of some names."""
    return any(re.search(rf"(?<![\w.]){re.escape(it)}\b", text) for it in names)


@pytest.mark.parametrize("heading", [it for it in NUMBERED if "faults" in it.split()])
def test_each_definition_has_a_line(heading: str) -> None:
    """Each definition that says a kind's name stands on a line of the kind."""
    section = NUMBERED[heading]
    lines = {(text, it) for text, _, defined, _ in section.rows for it in defined}
    wanted = {(number, it) for crate, name, number in section.numbers() for it in saying(crate, name)}
    assert wanted and not wanted - lines


def saying(crate: str, name: str) -> Iterator[Named]:
    """Yields the definitions that say the name of a number of a crate, but the numbering itself."""
    front, _, last = name.rpartition(".")
    words = rf"\w+\.TheVariants as {front}" if front else rf"TheConstants\.\{{[^}}]*\b{last}\b"
    imported = re.compile(rf"^use Rattle\.{crate}\.specs\.declared\.(?:\w+\.)+?{words}", re.M)
    for file in sorted(CRATES.glob("*/specs/**/*.antt")):
        if imported.search(file.read_text(encoding="utf-8")):
            for defined, text in definitions_in(file).items():
                if says(text, [name]) and defined != "kind_of":
                    yield Named(defined, str(file.relative_to(CRATES)))
