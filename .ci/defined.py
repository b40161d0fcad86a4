"""What the sources of crates define: definitions of specs/, functions of src/, and the numbers and the words that stand in them."""

import re
from functools import lru_cache
from pathlib import Path
from typing import Dict, Iterator, List, NamedTuple, Tuple

CRATES = Path(__file__).resolve().parent.parent / "crates"
# A definition begins a line. Inside a module it is indented, as a field of a record is that says neither of the words.
DEFINITION = re.compile(r"^(?:(?:\w+ )?pub |[ ]+(?:\w+ pub |pub (?=record |data )))(?!mod |use )(?:record |data )?(\S+)", re.M)
FUNCTION = re.compile(r"^[ ]*(?:pub(?:\(\w+\))? )?(?:const )?fn (\w+)", re.M)
UNREAD = re.compile(r"^(?:pub )?(?:ghost )?use [^;]*;|^(?:pub(?:\(\w+\))? )?const [^;]*;|//[^\n]*", re.M)
NUMBER = re.compile(r"\bensures \w+ \{ (.+?) ≡ ([0-9]+) \}")
LITERAL = re.compile(r'codes "((?:[^"\\]|\\.)*)"')
LINE = re.compile(r"\bline_of\s+\((.*?)∷ \[\]\)", re.S)
CHOICE = re.compile(r"\bthen\b|\belse\b")
# How a page tells names with their file.
TOLD = re.compile(r"((?:`\w+`, )*`\w+`) in `([\w/]+\.(?:antt|rt))`")


def parts_of(text: str, begins: "re.Pattern[str]") -> Dict[str, str]:
    """Returns what stands behind each name that begins a part, up to the next one; that of names that stand twice, joined."""
    parts: Dict[str, str] = {}
    found = list(begins.finditer(text))
    for here, after in zip(found, [it.start() for it in found[1:]] + [len(text)]):
        name = here[1].rstrip(":")
        parts[name] = parts.get(name, "") + text[here.end() : after]
    return parts


@lru_cache(maxsize=None)
def definitions_in(file: Path) -> Dict[str, str]:
    """Returns the definitions of a file of specs/, each with its text."""
    return parts_of(re.sub(r"^\s*--.*$", "", file.read_text(encoding="utf-8"), flags=re.M), DEFINITION)


@lru_cache(maxsize=None)
def functions_in(file: Path) -> Dict[str, str]:
    """Returns the functions of a file of src/, each with its text."""
    return parts_of(UNREAD.sub("", file.read_text(encoding="utf-8")), FUNCTION)


def names_in(file: Path) -> Dict[str, str]:
    """Returns what a file defines, as its folder has it."""
    return definitions_in(file) if file.suffix == ".antt" else functions_in(file)


class Named(NamedTuple):
    """A name, and the file in which it stands, below crates/."""

    name: str
    path: str

    @property
    def text(self) -> str:
        """What the file defines it as. It is nothing where there is no such file or no such name."""
        file = CRATES / self.path
        return names_in(file).get(self.name, "") if file.is_file() else ""

    def is_type(self) -> bool:
        """Returns whether the file has a type of this name."""
        file = CRATES / self.path
        wanted = re.compile(rf"^(?:pub(?:\(crate\))? )?(?:struct|enum|type) {self.name}\b", re.M)
        return file.is_file() and bool(wanted.search(file.read_text(encoding="utf-8")))


def named_in(text: str) -> List[Named]:
    """Returns the names that a text tells, each with its file."""
    return [Named(name.strip("`"), path) for names, path in TOLD.findall(text) for name in names.split(", ")]


def numbers_in(law: str) -> List[Tuple[str, str]]:
    """Returns what the clauses of a law say to be numbers, with these."""
    return NUMBER.findall(law)


def clauses_of(name: str, definition: str) -> List[Tuple[str, str]]:
    """Returns the clauses of a definition: what stands on the left, without the name, and on the right."""
    found = re.split(rf"^[ ]*{re.escape(name)}(?= )", definition, flags=re.M)[1:]
    sides = [re.split(r"\s=\s", it, maxsplit=1) for it in found]
    return [(it[0].strip(), it[1].strip()) for it in sides if len(it) > 1]


def pieces_of(text: str) -> str:
    """Returns what pieces print: the letters that they say, and `..` where they say none."""
    pieces = [(LITERAL.search(it), it.strip()) for it in re.split(r"∷|\+\+", text)]
    return "".join(it[1] if it else ".." for it, piece in pieces if piece).strip()


def words_in(name: str, definition: str) -> Iterator[str]:
    """Yields what a definition says in letters, with `..` in the place of what it takes from elsewhere."""
    for _, right in clauses_of(name, definition):
        for text in CHOICE.split(right)[1:] or LINE.findall(right) or [right]:
            if LITERAL.search(text):
                yield pieces_of(text)
