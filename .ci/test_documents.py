"""What the documents point at stands.

- Each link of a page leads to a file, and what it has behind `#` to a heading there. So do the pages that .ci/expected,
  .ci/expected-terminal and tools/ name with a heading.
- In the table `Which file to open` of CONTRIBUTING.md each path stands: below crates/, or below the top for tools, bench and .ci. A
  bare name of a file stands in the folder of the path before it, and one that begins with src/, specs/ or proofs/ in its crate.
- trials/CRATE/README.md has a row with a sentence for each edit of its folder, and no other. Where the edit stands is told in words of the
  crate's src/ or of specs/.
- The crates whose edits the gate tries are those that CONTRIBUTING.md names, with three edits each, of other names than their trials. Each has
  a line that tells what would go wrong.
- The name of each edit is of words with dashes, and the text that it replaces stands once in its file.
- Each command of examples/README.md stands in the file `expected` of an example, whose commands are tests.
- The list by layers that docs/architecture.md begins with has each crate of crates.txt once, as `NAME`, behind all that it stands on.
- A crate has at most 120 functions and 1,500 lines of code: comments, imports and clauses aren't counted.
"""

import re
from functools import lru_cache
from pathlib import Path
from typing import Dict, FrozenSet, Iterable, Iterator, List, Set, Tuple

import pytest

TOP = Path(__file__).resolve().parent.parent
PAGES = ("*.md", "docs/*.md", "examples/*.md", "bench/*.md", "release/*.md", "tools/**/*.md", "trials/**/*.md")
NAMING = (".ci/expected", ".ci/expected-terminal", "tools/**/*", "fleetplan")
LINK = re.compile(r"\]\(([^)\s]+)\)")
NAMED = re.compile(r"docs/[\w-]+\.md#[\w-]+")
TABLE = "## Which file to open"
NAME = re.compile(r"`([\w/.-]+)`")
ROW = re.compile(r"\| `([\w-]+)` \| (.*?) \| ([^|]*) \|")
EDIT = re.compile(r"^(file|old|new): (.*)$", re.MULTILINE)
EDIT_NAME = re.compile(r"[a-z0-9]+(-[a-z0-9]+)+")
# How many edits of a crate the gate tries, and the line of CONTRIBUTING.md that names those crates.
TRIED = 3
TRIED_LINE = "The gate tries three edits of each of these crates, in `must-fail/`: "
LAYERS = "## Crates by layer"
LISTED = re.compile(r"((?:`\w+`(?:, )?)+):")
# The most of a crate.
MOST_FUNCTIONS, MOST_LINES = 120, 1500
UNCOUNTED = re.compile(r"//[^\n]*|^\s*(?:pub(?:\(\w+\))? )?(?:ghost )?use [^;]*;", re.MULTILINE)
CLAUSE = re.compile(r"\b(?:requires|ensures)(?: \w+)? \{|\bghost \w+\s*[:=] \{")
COMMAND = re.compile(r"`((?:\./fleetplan|tools/ssim) [^`]+)`")


def slug(heading: str) -> str:
    """Returns what a heading is called in a link."""
    text = re.sub(r"\[([^\]]*)\]\([^)]*\)", r"\1", heading).lower()
    return re.sub(r"[^\w\- ]", "", text).replace(" ", "-")


def lines_of(page: Path) -> Iterator[Tuple[int, str]]:
    """Yields the lines of a page that are no code, with their numbers."""
    fenced = False
    for number, line in enumerate(page.read_text(encoding="utf-8").splitlines(), 1):
        if line.startswith("```"):
            fenced = not fenced
        elif not fenced and not line.startswith("    "):
            yield number, line


# Whether something stands, and where and how it is told that it doesn't.
Fact = Tuple[object, Path, int, str]


def lacking(facts: Iterable[Fact]) -> List[str]:
    """Returns what doesn't stand, or that there is nothing that should."""
    found = list(facts)
    lacks = [f"{file.relative_to(TOP)}:{number}: {told}" for stands, file, number, told in found if not stands]
    return lacks if found else ["nothing is said there"]


@lru_cache(maxsize=None)
def headings_of(page: Path) -> FrozenSet[str]:
    """Returns the headings of a page, as links name them."""
    return frozenset(slug(line.lstrip("#").strip()) for _, line in lines_of(page) if line.startswith("#"))


def link(file: Path, number: int, folder: Path, target: str) -> Iterator[Fact]:
    """A link leads to a file, and to a heading there."""
    path, _, anchor = target.partition("#")
    page = (folder / path).resolve() if path else file
    yield page.exists(), file, number, f"{target} leads to no file"
    if anchor and page.suffix == ".md" and page.exists():
        yield anchor in headings_of(page), file, number, f"{target} leads to no heading"


def named(paths: Iterable[Path]) -> List[str]:
    """Returns the names of paths below the top, in their order."""
    return sorted(str(it.relative_to(TOP)) for it in paths)


LINKING = named({it for form in PAGES for it in TOP.glob(form) if "](" in it.read_text(encoding="utf-8")})


@pytest.mark.parametrize("page", LINKING)
def test_links(page: str) -> None:
    """All links of a page lead somewhere."""
    file = TOP / page
    targets = [(number, it) for number, line in lines_of(file) for it in LINK.findall(line) if "://" not in it]
    assert not [it for number, target in targets for it in lacking(link(file, number, file.parent, target))]


@pytest.mark.parametrize("form", NAMING)
def test_named_pages(form: str) -> None:
    """Pages that other files name with a heading have it."""
    files = sorted(it for it in TOP.glob(form) if it.is_file() and "__pycache__" not in it.parts)
    lines = [(file, *line) for file in files for line in enumerate(file.read_text(encoding="utf-8").splitlines(), 1)]
    assert not [it for file, number, line in lines for target in NAMED.findall(line) for it in lacking(link(file, number, TOP, target))]


def rows_of_table() -> Iterator[Tuple[int, str]]:
    """Yields the rows of the table of CONTRIBUTING.md, with the numbers of their lines."""
    inside = False
    for number, line in lines_of(TOP / "CONTRIBUTING.md"):
        if line.startswith("#"):
            inside = line == TABLE
        elif inside and line.startswith("| "):
            yield number, line


def paths_of(number: int, line: str) -> Iterator[Fact]:
    """The paths of a row stand."""
    folder = crate = None
    for name in NAME.findall(LINK.sub("", line)):
        first = name.partition("/")[0]
        if "/" not in name and not (name.endswith((".rt", ".antt", ".py")) and folder):
            continue
        if "/" not in name:
            path = folder / name
        elif first in ("tools", "bench", ".ci"):
            path = TOP / name
        elif first in ("src", "specs", "proofs") and crate:
            path = crate / name
        else:
            crate = TOP / "crates" / first
            path = TOP / "crates" / name
        yield path.exists(), TOP / "CONTRIBUTING.md", number, f"`{name}` doesn't stand as {path.relative_to(TOP)}"
        folder = path if path.is_dir() else path.parent


ROWS = [pytest.param(*it, id=it[1].split("|")[1].strip()) for it in list(rows_of_table())[1:]]


@pytest.mark.parametrize("number, line", ROWS)
def test_which_file_to_open(number: int, line: str) -> None:
    """The paths of the table stand."""
    assert not lacking(paths_of(number, line))


def crates_of() -> Dict[str, List[str]]:
    """Returns the crates of crates.txt, each with the crates of the repository that it stands on."""
    text = re.sub(r"#.*", "", (TOP / "crates.txt").read_text(encoding="utf-8"))
    uses = {name: words.split() for name, words in re.findall(r"^(\w+)[^:\n]*:(.*)$", text, re.MULTILINE)}
    return {name: [it for it in words if it in uses] for name, words in uses.items()}


CRATES = crates_of()


def layers() -> Iterator[Fact]:
    """The list of crates by layers is whole."""
    page = TOP / "docs" / "architecture.md"
    seen: Set[str] = set()
    inside = False
    for number, line in lines_of(page):
        if line.startswith("#"):
            inside = line == LAYERS
        for name in NAME.findall("".join(LISTED.findall(line))) if inside else []:
            yield name in CRATES and name not in seen, page, number, f"`{name}` is no crate, or listed twice"
            yield seen.issuperset(CRATES.get(name, [])), page, number, f"`{name}` stands before a crate that it stands on"
            seen.add(name)
    yield seen >= CRATES.keys(), page, 0, f"below {LAYERS} lack: {', '.join(sorted(CRATES.keys() - seen))}"


def test_layers() -> None:
    """Each crate stands behind all that it stands on."""
    assert not lacking(layers())


def code_of(text: str) -> str:
    """Returns a source without its comments, imports and clauses."""
    text, kept, end = UNCOUNTED.sub("", text), [], 0
    for clause in CLAUSE.finditer(text):
        if clause.start() >= end:
            kept.append(text[end : clause.start()])
            end, depth = clause.end(), 1
            while depth and end < len(text):
                depth += {"{": 1, "}": -1}.get(text[end], 0)
                end += 1
    return "".join([*kept, text[end:]])


@pytest.mark.parametrize("name", CRATES)
def test_size(name: str) -> None:
    """A crate is of a size that can be proved."""
    sources = [it.read_text(encoding="utf-8") for it in sorted((TOP / "crates" / name).glob("src/**/*.rt"))]
    code = "\n".join(map(code_of, sources))
    functions, lines = len(re.findall(r"\bfn \w+", code)), sum(bool(line.strip()) for line in code.splitlines())
    assert functions <= MOST_FUNCTIONS
    assert lines <= MOST_LINES


def words_of(files: Iterable[Path]) -> Set[str]:
    """Returns all words of some files."""
    return {word for file in files for word in re.findall(r"\w+", file.read_text(encoding="utf-8"))}


def replaces(edit: Path, crate: Path) -> bool:
    """Returns whether each text that an edit replaces stands once in its file, after the replacements before it."""
    text = old = ""
    for key, value in EDIT.findall(edit.read_text(encoding="utf-8")):
        if key == "file":
            file = crate / value
            text = file.read_text(encoding="utf-8") if file.is_file() else ""
        elif key == "old":
            old = value
        elif text.count(old) == 1:
            text = text.replace(old, value)
        else:
            return False
    return bool(old)


def edit_of(edit: Path, crate: Path) -> Iterator[Fact]:
    """The texts that an edit replaces stand once."""
    yield EDIT_NAME.fullmatch(edit.stem), edit, 0, "the name isn't of words with dashes"
    yield replaces(edit, crate), edit, 0, "what it replaces doesn't stand once in its file"


@lru_cache(maxsize=None)
def defined() -> FrozenSet[str]:
    """Returns all words of all definitions."""
    return frozenset(words_of(TOP.glob("crates/*/specs/**/*.antt")))


def trials_of(folder: Path) -> Iterator[Fact]:
    """Each edit of a folder of trials/ has a row, and each row an edit."""
    page, crate = folder / "README.md", TOP / "crates" / folder.name
    text = page.read_text(encoding="utf-8") if page.is_file() else ""
    rows = {row[1]: row for row in map(ROW.fullmatch, text.splitlines()) if row}
    edits = {it.stem: it for it in folder.glob("*.edit")}
    known = defined() | words_of(crate.glob("src/**/*.rt"))
    for name in sorted(edits.keys() | rows.keys()):
        told = name in edits and name in rows and " " in rows[name][3].strip()
        yield told, page, 0, f"`{name}` has no edit, or no row with a sentence"
        if told:
            yield known.issuperset(NAME.findall(rows[name][2])), page, 0, f"`{name}` stands in {rows[name][2]}, which isn't there"
            yield from edit_of(edits[name], crate)


@pytest.mark.parametrize("folder", named(it for it in (TOP / "trials").iterdir() if it.is_dir()))
def test_trials(folder: str) -> None:
    """The edits of a crate that the gate leaves out have their rows."""
    assert not lacking(trials_of(TOP / folder))


FOLDERS = {it.parent.name: it for it in sorted((TOP / "crates").glob("*/must-fail"))}


def test_tried_crates() -> None:
    """CONTRIBUTING.md names the crates whose edits the gate tries."""
    named_there = [NAME.findall(line[len(TRIED_LINE) :]) for _, line in lines_of(TOP / "CONTRIBUTING.md") if line.startswith(TRIED_LINE)]
    assert [sorted(it) for it in named_there] == [sorted(FOLDERS)]


def edits_of(crate: str) -> Iterator[Fact]:
    """The edits of a crate that the gate tries are so many, and can be tried."""
    edits = sorted(FOLDERS[crate].glob("*.edit"))
    yield len(edits) == TRIED, FOLDERS[crate], 0, f"there are {len(edits)} edits in place of {TRIED}"
    for edit in edits:
        yield from edit_of(edit, TOP / "crates" / crate)
        is_told = re.search(r"^# \S+ .*\.$", edit.read_text(encoding="utf-8"), re.MULTILINE)
        yield is_told, edit, 0, "no line `# ..` tells what would go wrong"
        yield not (TOP / "trials" / crate / edit.name).exists(), edit, 0, "an edit of this name stands in trials/, too"


@pytest.mark.parametrize("crate", FOLDERS)
def test_edits(crate: str) -> None:
    """What the edits of the gate replace stands once."""
    assert not lacking(edits_of(crate))


def test_examples() -> None:
    """The commands of examples/README.md are run."""
    page, files = TOP / "examples" / "README.md", TOP.glob("examples/*/expected")
    lines = {line for file in files for line in file.read_text(encoding="utf-8").splitlines()}
    commands = [(number, command) for number, line in lines_of(page) for command in COMMAND.findall(line)]
    assert not lacking((f"$ {it}" in lines, page, number, f"`{it}` stands in no file `expected`") for number, it in commands)
