"""The commands of the README, of docs/formats.md and of the examples, with what they print.

In README.md, examples/README.md and docs/formats.md they stand in indented blocks, as lines that begin with `$ `, `./fleetplan`,
`tools/ssim`, `cat`, `cp` or `mkdir`. A command's output are the lines below it, up to the next command or the end of the block; where there
are none, only its status is compared. The status is 0: a command that ends with another one goes on with `; echo "status $?"`.

In .ci/expected, .ci/expected-terminal and examples/*/expected they stand as a line `$ COMMAND`, its output, and a line `status N`. A line
`..` in an output stands for any lines."""

import re
from pathlib import Path
from typing import Iterator, List, Optional, Sequence, Tuple

TOP = Path(__file__).resolve().parent.parent.parent
PAGES = ("README.md", "examples/README.md", "docs/formats.md")
FILES = re.compile(r"\.ci/expected(-terminal)?|examples/[\w-]+/expected")
COMMAND = re.compile(r"\$ |(\./fleetplan|tools/ssim|cat|cp|mkdir|rt) ")
# Commands that stand on a page to be read.
READ = ("rt ", "bash .ci/run", "snakemake ")


class Case:
    """A command, what it prints (None: anything), its status, and the line that it stands in."""

    def __init__(self, line: int, command: str, lines: Optional[Sequence[str]], status: int) -> None:
        self.line, self.command, self.status = line, command, status
        self.text = None if lines is None else "".join(f"{line}\n" for line in lines)

    def is_met_by(self, text: str, status: int) -> bool:
        """Returns whether a text and a status are what is wanted."""
        return (self.text is None or is_like(text, self.text)) and self.status == status


def is_like(text: str, wanted: str) -> bool:
    """Returns whether a text is the one that is wanted, where a line `..` stands for any lines."""
    parts = [r"(?:.*\n)*" if line == ".." else re.escape(line) + r"\n" for line in wanted.splitlines()]
    return text == wanted or re.fullmatch("".join(parts), text) is not None


def blocks(text: str) -> Iterator[Tuple[int, List[str]]]:
    """Yields the indented blocks of a page, each with the number of its first line."""
    block, first = [], 0
    for number, line in enumerate([*text.splitlines(), "end"], 1):
        if line.startswith("    "):
            first = first or number
            block.append(line[4:])
        elif line.strip() or not block:
            if block:
                yield first, block
            block, first = [], 0
        else:
            block.append("")


def cases_of_page(text: str) -> Iterator[Case]:
    """Yields the cases of a page. Commands of rt and of Snakemake stand there to be read, and aren't run."""
    for first, block in blocks(text):
        starts = [at for at, line in enumerate(block) if COMMAND.match(line)]
        for at, end in zip(starts, [*starts[1:], len(block)]):
            lines = [line for line in block[at + 1 : end] if line] or None
            command = block[at][2:] if block[at].startswith("$ ") else block[at]
            if not command.startswith(READ):
                yield Case(first + at, command, lines, 0)


def cases_of_file(text: str) -> Iterator[Case]:
    """Yields the cases of a file of commands, outputs and statuses, or raises ValueError. Other lines before the first command are a
    comment."""
    command: Optional[str] = None
    lines: List[str] = []
    place = 0
    for number, line in enumerate(text.splitlines(), 1):
        ended = re.fullmatch(r"status (\d+)", line)
        if line.startswith("$ ") and command is None:
            command, lines, place = line[2:], [], number
        elif ended and command is not None:
            yield Case(place, command, lines, int(ended[1]))
            command = None
        elif command is not None:
            lines.append(line)
        elif place and line.strip():
            raise ValueError(f"line {number} is neither a command nor its output")
    if command is not None:
        raise ValueError(f"the command of line {place} has no line 'status N'")


def has_cases(place: str) -> bool:
    """Returns whether commands stand in a file, by its path below the top."""
    return place in PAGES or FILES.fullmatch(place) is not None


def cases_of(file: Path) -> List[Case]:
    """Returns the cases of a file, or raises ValueError where it isn't written as one, or has none."""
    is_page = str(file.relative_to(TOP)) in PAGES
    cases = list((cases_of_page if is_page else cases_of_file)(file.read_text(encoding="utf-8")))
    if not cases:
        raise ValueError("no command stands there")
    return cases
