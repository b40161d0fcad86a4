"""Texts of rows: the bytes of a file, and what is known of bytes that have to come. .ci/rows/README.md says how they are written."""

import itertools
import re
from typing import Dict, Iterator, List, NamedTuple

OPEN = "..."
NOTHING = "nothing"
ESCAPED = re.compile(r"\\(?:([nrt\\])|x([0-9A-F]{2})|)")
BYTES = {"n": b"\n", "r": b"\r", "t": b"\t", "\\": b"\\"}
REPEAT = re.compile(r"repeat ((?:[a-z] \d+\.\.\d+(?:, )?)+): (.*)")
RANGE = re.compile(r"([a-z]) (\d+)\.\.(\d+)")
FILL = re.compile(r"fill to (\d+) with (.+)")
PLACE = re.compile(r"\{([a-z])(:AA?|[+-]\d+)?\}")


class BadText(ValueError):
    """A text that isn't written as texts are."""


def plain(text: str) -> bytes:
    """Returns the bytes that a text with escapes stands for."""
    parts: List[bytes] = []
    at = 0
    for found in ESCAPED.finditer(text):
        parts.append(text[at : found.start()].encode())
        if found[1] is None and found[2] is None:
            raise BadText(f"no escape is {text[found.start() : found.start() + 4]}")
        parts.append(BYTES[found[1]] if found[1] else bytes([int(found[2], 16)]))
        at = found.end()
    return b"".join([*parts, text[at:].encode()])


def letters(number: int) -> str:
    """Returns a number as two letters, from AA on."""
    return chr(ord("A") + number // 26) + chr(ord("A") + number % 26)


def counted(ranges: str) -> Iterator[Dict[str, int]]:
    """Yields what the letters of a line that repeats stand for, the last one counting fastest."""
    found = RANGE.findall(ranges)
    for numbers in itertools.product(*(range(int(first), int(last) + 1) for _, first, last in found)):
        yield {name: number for (name, _, _), number in zip(found, numbers)}


def put_in(line: str, numbers: Dict[str, int]) -> str:
    """Returns the line with these numbers in their places, some of them one more or less. Other letters are left for later."""

    def number(place: "re.Match[str]") -> str:
        name, how = place[1], place[2]
        if name not in numbers:
            return place[0]
        if how in (":A", ":AA"):
            return letters(numbers[name])[2 - len(how[1:]) :]
        return str(numbers[name] + int(how or 0))

    return PLACE.sub(number, line)


class Text(NamedTuple):
    """The bytes of a file: one text, or lines, each of which gets a line feed."""

    lines: List[str]
    is_block: bool

    def bytes(self) -> bytes:
        """Returns the bytes."""
        if not self.is_block:
            return b"" if self.lines[0] == NOTHING else plain(self.lines[0])
        written = b""
        for line in self.lines:
            repeat, fill = REPEAT.fullmatch(line), FILL.fullmatch(line)
            if repeat:
                written += b"".join(plain(put_in(repeat[2], it)) + b"\n" for it in counted(repeat[1]))
            elif fill:
                piece = plain(fill[2])
                written += piece * ((int(fill[1]) - len(written)) // len(piece))
            else:
                written += plain(line) + b"\n"
        return written


class Wanted(NamedTuple):
    """What has to come: bytes, and whether others may stand before or behind them."""

    begins: bool
    ends: bool
    text: bytes

    def is_met_by(self, seen: bytes) -> bool:
        """Returns whether these bytes are what is wanted."""
        if self.begins and self.ends:
            return self.text == seen
        if self.begins:
            return seen.startswith(self.text)
        return seen.endswith(self.text) if self.ends else self.text in seen


def wanted(text: Text) -> Wanted:
    """Returns what is wanted by a text: three dots at its beginning or its end stand for anything."""
    if text == Text([NOTHING], False):
        return Wanted(True, True, b"")
    lines, end = list(text.lines), b"\n" if text.is_block else b""
    begins, ends = not lines[0].startswith(OPEN), not lines[-1].endswith(OPEN)
    if begins and ends:
        return Wanted(True, True, text.bytes())
    if not ends:
        lines[-1], end = lines[-1][: -len(OPEN)], b""
    if not begins:
        lines[0] = lines[0][len(OPEN) :]
    return Wanted(begins, ends, b"\n".join(map(plain, lines)) + end)
