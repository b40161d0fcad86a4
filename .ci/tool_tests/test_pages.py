"""No text of a table, a name or an answer breaks a page, or becomes a part of it."""

import os
import shutil
import subprocess
import sys
from html.parser import HTMLParser
from pathlib import Path
from typing import List, Optional, Tuple
from xml.etree import ElementTree

import pytest
from hypothesis import given, strategies as st
from steps.page import page
from steps.rows import Row

TOP = Path(__file__).resolve().parent.parent.parent
TEXTS = st.text(st.one_of(st.sampled_from("<>&\"'/=!-{}%#;\n\x1b\x00 "), st.characters(blacklist_categories=["Cs"])), max_size=20)
MARKUP = "<b>\"x\" & 'y' {{7*7}} </script><script>alert(1)</script><!-- %}"
SOLVED = {"splits": 0, "fleets": [{"name": "F1", "has": 2, "used": 1}], "cost": "70", "bound": "70", "outcome": "optimal", "rotations": ["none"]}


class Tags(HTMLParser):
    """The tags of a page, with the names of their attributes, and all of its text."""

    def __init__(self, text: str) -> None:
        super().__init__()
        self.tags: List[Tuple[str, ...]] = []
        self.text = ""
        self.feed(text)
        self.close()

    def handle_starttag(self, tag: str, attrs: List[Tuple[str, Optional[str]]]) -> None:
        """Notes a tag."""
        self.tags.append((tag, *(name for name, _ in attrs)))

    def handle_data(self, data: str) -> None:
        """Notes a text."""
        self.text += data

    def handle_comment(self, data: str) -> None:
        """Notes a comment."""
        self.tags.append(("comment",))


def summary(name: str, outcome: str, told: str, check: str) -> Tags:
    """Returns a page of two scenarios, one of which is proved."""
    rows = [Row(name, outcome, told, check), Row(name, "optimal", told, check, {**SOLVED, "rotations": [told]})]
    return Tags(page(rows, [], "scenarios"))


@given(TEXTS, TEXTS, TEXTS, TEXTS)
def test_summary(name: str, outcome: str, told: str, check: str) -> None:
    """Names and answers of scenarios stand in the summary as texts alone."""
    found = summary(name, outcome, told, check)
    plain = summary("x", "x" if outcome else "", "x" if told else "", "x" if check else "")
    assert found.tags == plain.tags


def test_summary_of_markup() -> None:
    """Markup of a name stands there as it was written."""
    assert summary(MARKUP, "refused", MARKUP, MARKUP).text.count(MARKUP) >= 4


@pytest.mark.parametrize("name", [MARKUP.replace("/", "-"), "two\nlines", "a\x1b[31mb", "caf\xe9", "a\udce9b"], ids=ascii)
def test_drawing(name: str, tmp_path: Path) -> None:
    """The name of a folder stands in its page as a text alone, and its charts can be read."""
    tags = []
    for own in (name, "plain"):
        shutil.copytree(TOP / "examples" / "split", tmp_path / own)
        where = {**os.environ, "PYTHONDONTWRITEBYTECODE": "1"}
        words = [sys.executable, str(TOP / "tools" / "draw"), own, "--day-start", "00:00"]
        ran = subprocess.run(words, cwd=tmp_path, env=where, stdout=subprocess.PIPE, stderr=subprocess.STDOUT, check=False)
        assert ran.returncode == 0, ran.stdout
        drawn = (tmp_path / own / "plan.html").read_text(encoding="utf-8")
        for it in drawn.split("<svg")[1:]:
            ElementTree.fromstring(f"<svg{it.partition('</svg>')[0]}</svg>")
        tags.append(Tags(drawn).tags)
    assert tags[0] == tags[1]
