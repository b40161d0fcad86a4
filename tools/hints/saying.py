"""How a hint stands on standard error: a first line with the program's name, and further ones below it; in brief, whole, or as JSON."""

import json
import os
import sys
from typing import Dict, List, NamedTuple, Optional, Sequence, Tuple

from fleetplan.texts import can_be_typed, shown, typed

# What is said, by the values of FLEETPLAN_HINTS. With other values all of it stands on a terminal, and elsewhere what is brief.
SILENT, BRIEF, WHOLE, JSON = "0", "brief", "1", "json"


def mode() -> str:
    """Returns what is to be said."""
    asked = os.environ.get("FLEETPLAN_HINTS", "")
    return asked if asked in (SILENT, WHOLE, JSON) else WHOLE if sys.stderr.isatty() else BRIEF


class Where(NamedTuple):
    """Where something is wrong: the file, the line and the column, what was found there, and what is wanted; None of what isn't known."""

    file: Optional[str] = None
    line: Optional[int] = None
    column: Optional[str] = None
    found: Optional[str] = None
    wanted: Optional[str] = None


NOWHERE = Where()


class Note:
    """What is told in one object of JSON: where it is, the call that would do, and the sentences."""

    def __init__(self, where: Where, text: str) -> None:
        self.where, self.texts = where, [text]
        self.call: Optional[str] = None


class Hint:
    """The lines of a hint, each with whether it is said in brief too, and its notes. `status` is the one that it is about."""

    def __init__(self, status: Optional[int] = None) -> None:
        self.status = status
        self.lines: List[Tuple[str, Optional[bool]]] = []
        self.notes: List[Note] = []

    def fault(self, text: str, where: Where = NOWHERE) -> None:
        """Adds what is wrong, in a sentence that is said in brief too."""
        self.notes.append(Note(where, text))
        self.add(text, True)

    def say(self, text: str) -> None:
        """Adds a sentence. The first one is said in brief too."""
        if not self.notes:
            self.fault(text)
            return
        self.notes[-1].texts.append(text)
        self.add(text)

    def show(self, text: str) -> None:
        """Adds a line to be looked at."""
        self.lines.append(("    " + text, False))

    def mend(self, words: Sequence[str]) -> None:
        """Adds words to be typed, which are said in brief too, as is the sentence that leads to them."""
        call = typed(words) if can_be_typed(words) else "(a word of the call ends with a line feed, which can't be typed in one line)"
        if self.lines and self.lines[-1][0].endswith(":"):
            self.lines[-1] = (self.lines[-1][0], True)
        if self.notes and self.notes[-1].call is None:
            self.notes[-1].call = call
        self.lines.append(("    " + call, True))

    def brief(self, text: str) -> None:
        """Adds a sentence that is said in brief alone, where more is said else."""
        self.lines.append(("  " + text, None))

    def see(self, section: str, page: str = "formats") -> None:
        """Adds where to read on."""
        self.add(f"see docs/{page}.md#{section}")

    def add(self, text: str, is_brief: bool = False) -> None:
        """Adds a line that no note tells, as one of help."""
        self.lines.append((("  " if self.lines else "fleetplan: ") + text, is_brief))

    def told(self, how: str) -> str:
        """Returns what is said."""
        if how == JSON:
            return "".join(f"{json.dumps(self._object(it))}\n" for it in self.notes)
        left_out = {BRIEF: False, WHOLE: None}
        return "".join(f"{shown(text)}\n" for text, is_brief in self.lines if how in left_out and is_brief is not left_out[how])

    def _object(self, note: Note) -> Dict[str, object]:
        return {"status": self.status, **note.where._asdict(), "call": note.call, "text": "\n".join(note.texts)}


def put(hint: Hint) -> None:
    """Writes a hint to standard error, also where a name of a table has letters that the terminal lacks."""
    sys.stderr.flush()
    sys.stderr.buffer.write(hint.told(mode()).encode(sys.stderr.encoding or "utf-8", "backslashreplace"))
    sys.stderr.flush()
