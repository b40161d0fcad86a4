"""Reads the rows of .ci/rows, as .ci/rows/README.md says that they are written."""

import re
import shlex
from pathlib import Path
from typing import Dict, List, NamedTuple, Optional, Tuple

from row_runs.texts import Text, Wanted, plain, put_in, wanted

FIRST = "judging/first-run"
FILE = r"([\w-]+\.(?:csv|txt))"
SET = re.compile(r"files ([\w-]+)")
GIVEN = re.compile(rf"given {FILE}:(?: (.*))?")
LACKS = re.compile(rf"lacks {FILE}")
ANSWER, AS = re.compile(r"answer ([\w-]+)"), re.compile(r"as ([\w-]+)")
SETS = re.compile(r"given ([\w/-]+(?:, [\w/-]+)*)")
EACH = re.compile(rf"each {FILE}:")
PRINTS = re.compile(r"prints:(?: (.*))?")
STATUS = re.compile(r"status (\d+)")
LOOP = re.compile(r"for ([a-z]) in (\d+)\.\.(\d+)")
LEAVES = re.compile(rf"leaves {FILE}:(?: (.*))?")
CALL = "$ "
THEN = "then $ "
INDENT = "    "

# The files of a folder by name; None is no file.
Files = Dict[str, Optional[Text]]


class BadRows(Exception):
    """A file of rows that can't be read."""


class Line(NamedTuple):
    """A line with its number, and the lines below it that are indented."""

    number: int
    text: str
    below: List[str]


class Step(NamedTuple):
    """A call, and what has to come: its output, its status, and the files that it writes."""

    words: List[str]
    output: Wanted
    status: int
    leaves: Dict[str, Wanted]


class Row(NamedTuple):
    """What lies in the folder, and the calls over it. Where it is run twice, the same has to come again."""

    place: str
    files: Files
    steps: List[Step]
    is_twice: bool


class Told:
    """What is told of a call so far."""

    def __init__(self) -> None:
        self.output: Optional[Wanted] = None
        self.status: Optional[int] = None
        self.leaves: Dict[str, Wanted] = {}

    def takes(self, line: Line) -> bool:
        """Takes what a line tells, and returns whether it tells something."""
        prints, status, leaves = (form.fullmatch(line.text) for form in (PRINTS, STATUS, LEAVES))
        if prints and self.output is None:
            self.output = wanted(text_of(prints[1], line))
        elif status and self.status is None:
            self.status = int(status[1])
        elif leaves and leaves[1] not in self.leaves:
            self.leaves[leaves[1]] = wanted(text_of(leaves[2], line))
        else:
            return False
        return True

    def step(self, words: str, output: Optional[Wanted] = None) -> Step:
        """Returns the call with what is told of it, where the output is told here or by a text of its own."""
        if self.status is None or (output is None) == (self.output is None):
            raise BadRows(f"$ {words}: status and output have to be told, each in one place")
        return Step(shlex.split(words), output or self.output or wanted(Text([""], False)), self.status, self.leaves)


class Entry:
    """A paragraph of rows: words, the files that are laid, one that changes, and what is told of each call."""

    def __init__(self, paragraph: List[Line]) -> None:
        self.number = paragraph[0].number
        self.calls: List[str] = []
        self.laid: List[Line] = []
        self.changes: Optional[Tuple[str, Line]] = None
        self.told = Told()
        self.behind: List[Tuple[str, Told]] = []
        self.is_twice = False
        for line in paragraph:
            self.take(line)

    def take(self, line: Line) -> None:
        """Takes a line of the paragraph."""
        each = EACH.fullmatch(line.text)
        if line.text.startswith(CALL):
            self.calls.append(line.text[len(CALL) :])
        elif line.text.startswith(THEN):
            self.behind.append((line.text[len(THEN) :], Told()))
        elif each:
            self.changes = each[1], line
        elif line.text == "twice":
            self.is_twice = True
        elif lays(line):
            self.laid.append(line)
        elif not (self.behind[-1][1] if self.behind else self.told).takes(line):
            raise BadRows(f"{line.number}: {line.text}")

    def rows(self, place: str, files: Files) -> List[Row]:
        """Returns the rows over these files: one for each line of words and each text of the file that changes."""
        if not self.calls:
            raise BadRows(f"{self.number}: there is no line of words")
        behind = [told.step(words) for words, told in self.behind]
        rows: List[Row] = []
        for words in self.calls:
            if self.changes is None:
                rows.append(Row(f"{place}: $ {words}", files, [self.told.step(words), *behind], self.is_twice))
                continue
            name, line = self.changes
            rows += [
                Row(
                    f"{place}: $ {words}, {name}: {text.lines[0]}",
                    {**files, name: text},
                    [self.told.step(words, output), *behind],
                    self.is_twice,
                )
                for text, output in texts_of(line)
            ]
        return rows


def lays(line: Line) -> bool:
    """Returns whether a line lays files."""
    return any(form.fullmatch(line.text) for form in (GIVEN, LACKS, SETS))


def text_of(inline: Optional[str], line: Line) -> Text:
    """Returns the text that stands behind a colon or below it."""
    if (inline is None) == (not line.below):
        raise BadRows(f"{line.number}: a text stands behind the colon or below it")
    return checked(Text(line.below, True) if inline is None else Text([inline], False))


def checked(text: Text) -> Text:
    """Returns the text, where its escapes are such."""
    for line in text.lines:
        plain(line)
    return text


def texts_of(line: Line) -> List[Tuple[Text, Optional[Wanted]]]:
    """Returns the texts below a line, each with what stands below it, which is printed, or None."""
    texts: List[Tuple[Text, List[str]]] = []
    for below in line.below:
        if not below.startswith(INDENT):
            texts.append((checked(Text([below], False)), []))
        elif texts:
            texts[-1][1].append(below[len(INDENT) :])
    if not texts:
        raise BadRows(f"{line.number}: there is no text")
    return [(text, wanted(Text(lines, True)) if lines else None) for text, lines in texts]


def paragraphs(text: str) -> List[List[Line]]:
    """Returns the paragraphs of a file, without comments."""
    all_of_them: List[List[Line]] = [[]]
    for number, line in enumerate(text.splitlines(), 1):
        if line.lstrip().startswith("#"):
            continue
        if not line.strip():
            all_of_them.append([])
        elif line.startswith(INDENT) and all_of_them[-1]:
            all_of_them[-1][-1].below.append(line[len(INDENT) :])
        else:
            all_of_them[-1].append(Line(number, line, []))
    return [it for it in all_of_them if it]


def with_number(paragraph: List[Line], name: str, number: int) -> List[Line]:
    """Returns a paragraph with a number in the places of its name."""
    numbers = {name: number}
    return [Line(it.number, put_in(it.text, numbers), [put_in(line, numbers) for line in it.below]) for it in paragraph]


def answered(line: Line, answers: Dict[str, List[Line]]) -> List[Line]:
    """Returns the lines of the answer that a line names, or the line itself."""
    named = AS.fullmatch(line.text)
    if named and named[1] not in answers:
        raise BadRows(f"{line.number}: there is no answer {named[1]}")
    return answers[named[1]] if named else [line]


class Reader:
    """The sets of files and the rows of all groups."""

    def __init__(self) -> None:
        self.sets: Dict[str, List[Line]] = {}
        self.entries: List[Tuple[str, Entry]] = []

    def read(self, group: str, text: str) -> None:
        """Reads the file of a group."""
        found = paragraphs(text)
        if not found:
            raise BadRows("there is nothing in it")
        answers: Dict[str, List[Line]] = {}
        for lines in found:
            answer = ANSWER.fullmatch(lines[0].text)
            if answer:
                answers[answer[1]] = lines[1:]
                continue
            paragraph = [it for line in lines for it in answered(line, answers)]
            name, loop = SET.fullmatch(paragraph[0].text), LOOP.fullmatch(paragraph[0].text)
            if name:
                self.name_set(f"{group}/{name[1]}", paragraph)
            elif loop:
                numbers = range(int(loop[2]), int(loop[3]) + 1)
                self.entries += [(group, Entry(with_number(paragraph[1:], loop[1], it))) for it in numbers]
            else:
                self.entries.append((group, Entry(paragraph)))

    def name_set(self, name: str, paragraph: List[Line]) -> None:
        """Keeps a set of files under its name."""
        lines = paragraph[1:]
        if name in self.sets or not lines or not all(map(lays, lines)):
            raise BadRows(f"{paragraph[0].number}: {name} is no set of files, or there is one already")
        self.sets[name] = lines

    def files(self, group: str, lines: List[Line]) -> Files:
        """Returns the files that lines lay, each over those before."""
        files: Files = {}
        for line in lines:
            given, lacks, sets = (form.fullmatch(line.text) for form in (GIVEN, LACKS, SETS))
            if given:
                files[given[1]] = text_of(given[2], line)
            elif lacks:
                files[lacks[1]] = None
            elif sets:
                for name in sets[1].split(", "):
                    files.update(self.files_of(group, name, line))
        return files

    def files_of(self, group: str, name: str, line: Line) -> Files:
        """Returns the files of a set, of this group or of the one that it names."""
        whole = name if "/" in name else f"{group}/{name}"
        if whole not in self.sets:
            raise BadRows(f"{line.number}: there are no files {whole}")
        return self.files(whole.partition("/")[0], self.sets[whole])

    def rows(self) -> List[Row]:
        """Returns all rows, each over the files of the first run."""
        first = self.files("", self.sets.get(FIRST, []))
        rows: List[Row] = []
        for group, entry in self.entries:
            place = f".ci/rows/{group}.txt:{entry.number}"
            try:
                rows += entry.rows(place, {**first, **self.files(group, entry.laid)})
            except (BadRows, ValueError) as bad:
                raise BadRows(f"{place}: {bad}") from bad
        return rows


def read_all(folder: Path) -> List[Row]:
    """Returns the rows of all groups of a folder."""
    reader = Reader()
    for file in sorted(folder.glob("*.txt")):
        try:
            reader.read(file.stem, file.read_text(encoding="utf-8"))
        except (BadRows, ValueError) as bad:
            raise BadRows(f".ci/rows/{file.name}: {bad}") from bad
    rows = reader.rows()
    if not rows:
        raise BadRows(".ci/rows: no row stands there")
    return rows
