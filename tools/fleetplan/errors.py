"""What is wrong with a file, and where."""

from __future__ import annotations

import re
from typing import Callable, Optional

# The statuses with which the program tells it: a file that doesn't read, one that can't be read or written, and files that don't
# belong together.
UNREADABLE, FAULT, REFUSED = 6, 7, 9

_PLACE = re.compile(
    r"(?:bad input: (?P<file>\S+)|(?P<of>plan|proof) refused:|broken:|fallen:|fault: (?P<lost>\S+))"
    r"(?: (?:record|line|node) (?P<record>\d+))?(?: (?:kind|rule) (?P<kind>\d+))?"
)


class Unread(Exception):
    """A file that doesn't read, can't be read or written, or doesn't belong to the others.

    Its text is one line. `status` is the one that the program has for it. `file`, `record` (from 1 on, the header is the first; in
    a schedule file the line) and `column` (its heading) say where it is, each None where that isn't known."""

    def __init__(
        self, text: str, status: int = UNREADABLE, file: Optional[str] = None, record: Optional[int] = None, column: Optional[str] = None
    ) -> None:
        super().__init__(text)
        self.status, self.file, self.record, self.column = status, file, record, column

    @classmethod
    def of(cls, file: str, what: str, status: int = UNREADABLE) -> Unread:
        """Returns the fault of a whole file: its name, and what is wrong with it."""
        return cls(f"{file} {what}", status, file)

    @classmethod
    def at(cls, file: str, record: int, what: str, column: Optional[str] = None) -> Unread:
        """Returns the fault of a record of a file."""
        return cls(f"{file} record {record}: {what}", UNREADABLE, file, record, column)


class Answered(Exception):
    """An answer of the program other than the one that was asked for.

    Its text is what the program printed. `status` is its own. `file`, `record` (or the line of a proof, or the node of its tree) and `kind`
    (or the rule that is broken) are None where the text doesn't tell them."""

    def __init__(self, text: str, status: int, find_hint: Callable[[], str] = str) -> None:
        super().__init__(text)
        self.status, self._find_hint = status, find_hint
        found = _PLACE.fullmatch(text.strip())
        name = found and (found["file"] or found["lost"] or {"plan": "plan.csv", "proof": "proof.txt"}.get(found["of"] or ""))
        self.file: Optional[str] = name or None
        self.record: Optional[int] = int(found["record"]) if found and found["record"] else None
        self.kind: Optional[int] = int(found["kind"]) if found and found["kind"] else None

    @property
    def hint(self) -> str:
        """What helps, in lines, empty where nothing is known."""
        return self._find_hint()


class Refused(Answered):
    """Words, tables, a plan, the text of a proof or named aircraft that the program refuses: status 2, 6, 9 or 10."""


class Fault(Answered):
    """A file that can't be read or written (status 7), memory that ran out (8), or a program that couldn't be run or gave no answer."""


class Unrun(Fault):
    """A program that couldn't be run, or was ended since it took or printed too much. What it was is the cause."""


class Broken(Answered):
    """A proof that doesn't hold (status 9 of `check` and `whatif`), or that says nothing of another number of aircraft (11)."""
