"""The two ways of docs/architecture.md, of a leg and of a price, are those of the code.

A line of a way has a crate, functions of it in their order, and the types that they make of what they are given.

- Each function stands in its file, which is of the crate. It is called by another function that the way names, but for the first one.
- Each type stands in its file, and a function of the line names it.
- A way has no more functions than it had: who shortens it takes the number along."""

import re
from pathlib import Path
from typing import Dict, Iterator, List, NamedTuple

import pytest
from defined import Named, named_in

TOP = Path(__file__).resolve().parent.parent.parent
PAGE = TOP / "docs" / "architecture.md"
ROW = re.compile(r"\| `(\w+)` \| ([^|]+) \| ([^|]*)\|")
# The most functions of each way.
MOST = {"The way of a leg": 35, "The way of a price": 34}


class Line(NamedTuple):
    """A line of a way: the crate, its functions, and the types that they make."""

    crate: str
    functions: List[Named]
    types: List[Named]


def section(heading: str) -> str:
    """Returns what stands below a heading of the page."""
    _, _, behind = PAGE.read_text(encoding="utf-8").partition(f"\n### {heading}\n")
    return re.split(r"^##", behind, maxsplit=1, flags=re.M)[0]


def lines_of(heading: str) -> List[Line]:
    """Returns the lines of a way."""
    found = map(ROW.fullmatch, section(heading).splitlines())
    return [Line(it[1], named_in(it[2]), named_in(it[3])) for it in found if it]


def calls(text: str, name: str) -> bool:
    """Returns whether a function's text calls one of a name."""
    return bool(re.search(rf"\b{name}(?:::<[^>]*>)?\(", text))


def uncalled(heading: str) -> Iterator[Named]:
    """Yields the functions of a way, behind its first one, that no other one calls of those that its section names."""
    texts: Dict[Named, str] = {it: it.text for it in named_in(section(heading))}
    for it in [it for line in lines_of(heading) for it in line.functions][1:]:
        if not any(calls(text, it.name) for other, text in texts.items() if other != it):
            yield it


@pytest.mark.parametrize("heading", MOST)
def test_names(heading: str) -> None:
    """Each function and each type stands in its file."""
    lines = lines_of(heading)
    assert lines and all(line.functions for line in lines)
    assert not [it for line in lines for it in line.functions if not it.text or not it.path.startswith(f"{line.crate}/src/")]
    assert not [it for line in lines for it in line.types if not it.is_type()]
    assert not [it for it in named_in(section(heading)) if not it.text and not it.is_type()]


@pytest.mark.parametrize("heading", MOST)
def test_follow(heading: str) -> None:
    """Each function is called by another one of the way, and makes what is said."""
    assert not list(uncalled(heading))
    unmade = [it for line in lines_of(heading) for it in line.types if not any(re.search(rf"\b{it.name}\b", f.text) for f in line.functions)]
    assert not unmade


@pytest.mark.parametrize("heading, most", MOST.items())
def test_no_longer(heading: str, most: int) -> None:
    """The way has no more functions than it had."""
    functions = [it for line in lines_of(heading) for it in line.functions]
    assert len(set(functions)) == len(functions) <= most
