"""Texts from files and words of calls, as they are shown in one line and told."""

import contextlib
import os
import shlex
import sys
from typing import Callable, Iterable, Optional, Sequence, TextIO, TypeVar

# How many letters of a text from a file are shown, and how many names of a list.
MOST_LETTERS = 100
MOST_NAMES = 6
Found = TypeVar("Found")


def shown(text: str) -> str:
    """Returns a text in one line of letters that a terminal can show, where any other letter has its number. All that is told goes through
    this, since names and words may hold anything."""
    return text if text.isprintable() else "".join(it if it.isprintable() else _number(it) for it in text)


def tell(*lines: str, to: Optional[TextIO] = None) -> None:
    """Tells lines, on standard error where nothing else is said, each of them `shown`."""
    stream, encoding = to or sys.stderr, (to or sys.stderr).encoding or "utf-8"
    # Where standard error can't be written nothing can be told of it.
    with contextlib.suppress(*([OSError] if to is None else [])):
        for it in lines:
            stream.write(f"{shown(it)}\n".encode(encoding, "backslashreplace").decode(encoding))
        stream.flush()


def _number(letter: str) -> str:
    """Returns a letter that can't be shown as its number. One of "surrogateescape" is a byte."""
    at = ord(letter) - 0xDC00 if 0xDC80 <= ord(letter) <= 0xDCFF else ord(letter)
    return f"\\x{at:02x}" if at < 256 else f"\\u{at:04x}" if at < 0x10000 else f"\\U{at:08x}"


def can_be_typed(words: Iterable[str]) -> bool:
    """Returns whether words can be typed in one line of a shell: those that end with a line feed can't."""
    return not any(it.endswith("\n") for it in words)


def typed(words: Iterable[str]) -> str:
    """Returns words as they are typed in one line of a shell, which `can_be_typed` asks for."""
    return " ".join(map(_quoted, words))


def _quoted(word: str) -> str:
    if word and all(it.isalnum() or it in "-_./:=,+@%" for it in word):
        return word
    if word.isprintable():
        return shlex.quote(word)
    letters = (chr(it) if it < 128 and chr(it).isalnum() or chr(it) in "_./ " else f"\\{it:03o}" for it in os.fsencode(word))
    return f"\"$(printf '{''.join(letters)}')\""


def plain(text: str) -> str:
    """Returns a text from a file in one line of letters that a terminal can show, shortened where it is long."""
    told = shown(text[: MOST_LETTERS + 1])
    return told if len(text) <= MOST_LETTERS else f"{told[:MOST_LETTERS]} .."


def printed(text: str) -> str:
    """Returns a text of bytes, each a letter, in which those that aren't plain ASCII can be seen."""
    return "".join(it if 32 <= ord(it) < 127 else _number(it) for it in text)


def listed(names: Iterable[str]) -> str:
    """Returns names in a row, with the number of those that are left out."""
    names = list(names)
    if len(names) <= MOST_NAMES + 1:
        return " and ".join([", ".join(names[:-1]), names[-1]] if len(names) > 1 else names)
    return f"{', '.join(names[:MOST_NAMES])} and {len(names) - MOST_NAMES} more"


def some(texts: Sequence[str]) -> str:
    """Returns the first of some texts, and how many more there are."""
    rest = f" and {len(texts) - MOST_NAMES} more" if len(texts) > MOST_NAMES else ""
    return ", ".join(texts[:MOST_NAMES]) + rest


def counted(number: int, one: str, many: Optional[str] = None) -> str:
    """Returns a number with the word that it counts."""
    return f"{number} {one if number == 1 else many or one + 's'}"


def quietly(look: Callable[..., Optional[Found]], *parts: object) -> Optional[Found]:
    """Returns what a look into files finds, or None where it finds nothing, whatever is wrong with them."""
    try:
        return look(*parts)
    except Exception:
        return None
