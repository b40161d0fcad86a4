"""The tables of a page, as a reader sees them."""

from collections import defaultdict
from html.parser import HTMLParser
from typing import Dict, List, Optional, Tuple


class Tables(HTMLParser):
    """Of each section of a page the rows of its tables, each a list of cells; which texts of cells are bold; and the titles of cells."""

    def __init__(self, text: str) -> None:
        super().__init__()
        self.rows: Dict[str, List[List[str]]] = defaultdict(list)
        self.bold: Dict[str, List[str]] = defaultdict(list)
        self.titles: Dict[str, List[str]] = defaultdict(list)
        self.section, self.is_cell, self.is_bold = "", False, False
        self.feed(text)

    def handle_starttag(self, tag: str, attrs: List[Tuple[str, Optional[str]]]) -> None:
        """Notes where a section, a row, a cell or a bold text begins."""
        if tag == "section":
            self.section = dict(attrs).get("id") or self.section
        elif tag == "tr":
            self.rows[self.section].append([])
        elif tag in ("td", "th"):
            self.is_cell = True
            self.rows[self.section][-1].append("")
            self.titles[self.section] += [value or "" for name, value in attrs if name == "title"]
        self.is_bold = tag == "b"

    def handle_endtag(self, tag: str) -> None:
        """Notes where a cell or a bold text ends."""
        self.is_cell = self.is_cell and tag not in ("td", "th")
        self.is_bold = self.is_bold and tag != "b"

    def handle_data(self, data: str) -> None:
        """Takes the text of a cell."""
        if self.is_cell:
            self.rows[self.section][-1][-1] += data
            self.bold[self.section] += [data] if self.is_bold else []
