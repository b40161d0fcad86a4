"""The page of the manual."""

from typing import Iterable, Iterator

from fleetplan.words import COMMANDS, OPTIONS
from hints.usage import FILES, VARIABLES

STATUSES = (
    ("0", "the answer is the best there is: a plan that is optimal or legal, a proof that holds"),
    ("3, 4, 5", "of solve and make: a plan with a gap, no plan is legal, and no plan was found"),
    ("1", "the program could not be built"),
    ("2", "the words are no call"),
    ("6, 7, 8", "a table doesn't read, a file can't be read or written, memory ran out"),
    ("9", "the plan, the proof or a fleet's name is refused"),
    ("10", "aircraft can't all come to maintenance by their dates"),
    ("11", "the proof says nothing of another number of aircraft"),
)


def plain(text: str) -> str:
    """Returns a text in which nothing is a request of roff."""
    return text.replace("\\", "\\e").replace("-", "\\-").replace("'", "\\(aq")


def listed(items: Iterable[Iterable[str]]) -> Iterator[str]:
    """Yields a list of terms with what is said of each."""
    for term, text in items:
        yield from (".TP", f".B {plain(term)}", plain(text))


def page() -> Iterator[str]:
    """Yields the lines of the page."""
    yield '.\\" Made by `tools/completion man`.'
    yield '.TH FLEETPLAN 1 "" fleetplan'
    yield ".SH NAME"
    yield "fleetplan \\- an airline\\(aqs fleet assignment and maintenance routing, proved from bytes to bytes"
    yield ".SH SYNOPSIS"
    for name, own in COMMANDS.items():
        yield from (f".B fleetplan {name}", f".I {' '.join(own.names)}", *(["[options]"] if own.options else []), ".br")
    yield ".SH COMMANDS"
    yield from listed((f"{name} {' '.join(own.names)}", f"{own.does}.") for name, own in COMMANDS.items())
    yield ".SH OPTIONS"
    for name, option in OPTIONS.items():
        of = ", ".join(it for it in COMMANDS if name in COMMANDS[it].options)
        without = f" ({option.default} without it)" if option.default else ""
        yield from listed([(f"--{name} {option.placeholder}".rstrip(), f"{option.means}{without}; of {of}.")])
    yield from (".SH FILES", "In the folder DIR:")
    yield from listed(FILES)
    yield ".SH ENVIRONMENT"
    yield from listed(VARIABLES)
    yield ".SH EXIT STATUS"
    yield from listed(STATUSES)
    yield ".SH SEE ALSO"
    yield "README.md, and docs/formats.md of each file, word and refusal."
