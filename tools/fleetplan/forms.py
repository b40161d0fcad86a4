"""The forms of fields and of words, and what is wrong with one that hasn't its form."""

import datetime
import difflib
import re
import unicodedata
from typing import Any, Callable, Optional

from fleetplan.texts import plain
from fleetplan.times import minute_of

# Says what is wrong with a field, or returns None.
Wrong = Callable[[str], Optional[str]]

MOST_DIGITS = 20
MOST_AIRCRAFT, MOST_TURN, MOST_LEFT = 500, 600, 30
MOST_PARKED = 10_000
MOST_SHIFT = 720
# The most that a cost may be, in units of currency, and the least with a minus.
TRILLION = 1_000_000_000_000


class Form:
    """The form of a word: `form` says it behind "it wants"."""

    form = ""

    def read(self, text: str) -> Any:
        """Returns what a text of this form tells, or None where it hasn't the form."""
        raise NotImplementedError

    def likely(self, text: str) -> str:
        """Returns a text of this form that another one most likely stands for, or an empty one."""
        raise NotImplementedError

    def mended(self, text: str) -> Optional[str]:
        """Returns another text of this form that a text most likely stands for, or None."""
        better = self.likely(text)
        return better if better != text and self.read(better) is not None else None


class Number(Form):
    """A whole number between two bounds."""

    def __init__(self, least: int, most: int, is_even: bool = False) -> None:
        self.least, self.most, self.is_even = least, most, is_even
        self.form = f"{'an even' if is_even else 'a'} whole number from {least} to {most}"

    def read(self, text: str) -> Optional[int]:
        """Returns the number that a text writes, or None."""
        if not re.fullmatch(r"[0-9]{1,%d}" % MOST_DIGITS, text):
            return None
        number = int(text)
        fits = self.least <= number <= self.most and not (self.is_even and number % 2)
        return number if fits else None

    def likely(self, text: str) -> str:
        """Returns a text without marks between its digits."""
        return re.sub(r"[ ,'_]", "", text)


class Choice(Form):
    """One of a few words, in just these letters."""

    def __init__(self, *words: str) -> None:
        self.words = words
        self.form = " or ".join(words)

    def read(self, text: str) -> Optional[str]:
        """Returns the word that a text is, or None."""
        return text if text in self.words else None

    def likely(self, text: str) -> str:
        """Returns the word that is nearest to a text, or an empty one."""
        return "".join(difflib.get_close_matches(text.strip().lower(), self.words, 1, 0.6))


class Time(Form):
    """A clock time."""

    form = "a time HH:MM with two digits each, from 00:00 to 23:59"

    def read(self, text: str) -> Optional[int]:
        """Returns the minute of the day that a text tells, or None."""
        try:
            return minute_of(text)
        except ValueError:
            return None

    def likely(self, text: str) -> str:
        """Returns a time in other signs as HH:MM."""
        found = re.fullmatch(r"([0-9]{1,2})[:.h]?([0-9]{2})(:00)?", text.strip())
        return f"{int(found[1]):02}:{found[2]}" if found else ""


class Date(Form):
    """A day of the calendar."""

    form = "a date of the calendar as YYYY-MM-DD, such as 2026-11-27"

    def read(self, text: str) -> Optional[datetime.date]:
        """Returns the date that a text tells, or None."""
        found = re.fullmatch(r"([0-9]{4})-([0-9]{2})-([0-9]{2})", text)
        try:
            return datetime.date(int(found[1]), int(found[2]), int(found[3])) if found else None
        except ValueError:
            return None

    def likely(self, text: str) -> str:
        """Returns a date in other signs as YYYY-MM-DD."""
        found = re.fullmatch(r"([0-9]{4})[-/.]([0-9]{1,2})[-/.]([0-9]{1,2})", text.strip())
        return f"{found[1]}-{int(found[2]):02}-{int(found[3]):02}" if found else ""


class Name(Form):
    """A name of the tables: any word, since only they tell which there are."""

    form = "a name of fleets.csv"

    def read(self, text: str) -> str:
        """Returns the text."""
        return text

    def likely(self, text: str) -> str:
        """Returns the text."""
        return text


def free(_: str) -> None:
    """Says nothing: any text will do."""


def code(text: str) -> Optional[str]:
    """Says what is wrong with a station's code, or returns None."""
    if re.fullmatch(r"[A-Z]{3}", text):
        return None
    return oddity(text) or case(text, r"[A-Za-z]{3}") or "a station code is exactly 3 letters A to Z"


def name(text: str) -> Optional[str]:
    """Says what is wrong with the name of a flight, a fleet or a tail, or returns None."""
    if re.fullmatch(r"[A-Z0-9]{1,8}", text):
        return None
    if re.fullmatch(r"[A-Z0-9]{9,}", text):
        return f"it has {len(text)} letters and digits, and a name has 8 at most"
    shorter = re.sub(r"[-_ ./]", "", text).upper()
    better = f" (as {shorter})" if shorter != text and re.fullmatch(r"[A-Z0-9]{1,8}", shorter) else ""
    return oddity(text) or case(text, r"[A-Za-z0-9]{1,8}") or f"a name is 1 to 8 letters A to Z and digits{better}"


def place(text: str) -> Optional[str]:
    """Says what is wrong with where an aircraft is, or returns None."""
    wrong = name(text) if text else None
    return f"{wrong}; it is where the aircraft is: a station, a flight, or nothing" if wrong else None


def time(text: str) -> Optional[str]:
    """Says what is wrong with a time, or returns None."""
    form = Time()
    if form.read(text) is not None:
        return None
    better = form.mended(text)
    return oddity(text) or f"a time is HH:MM with two digits each, 00:00 to 23:59{f' (write {better})' if better else ''}"


def flag(text: str) -> Optional[str]:
    """Says what is wrong with a yes or no, or returns None."""
    if text in ("yes", "no"):
        return None
    return oddity(text) or "yes or no is wanted, in small letters"


def whole(least: int, most: int) -> Wrong:
    """Returns what says of a whole number what is wrong with it."""

    def number(text: str) -> Optional[str]:
        digits = len(re.findall("[0-9]", text))
        if re.fullmatch(r"-?[0-9]+", text) and digits <= MOST_DIGITS:
            fits = least <= int(text) <= most
            return None if fits else f"it may be {least} to {most}"
        form = "a whole number is wanted, of digits alone"
        if re.fullmatch(r"-?[0-9]+\.[0-9]+", text):
            return "a whole number is wanted: count in smaller units in each record, as in cents"
        if re.fullmatch(r"\+[0-9]+", text):
            return f"{form}: {text[1:]}"
        return oddity(text) or form

    return number


def limit(text: str) -> Optional[str]:
    """Says what is wrong with how many aircraft may stay for a night, or returns None."""
    wrong = None if text == "-" else whole(0, MOST_PARKED)(text)
    return f"{wrong}; - stands for any number" if wrong else None


def shift(text: str) -> Optional[str]:
    """Says what is wrong with the minutes by which a leg may depart later or earlier, or returns None."""
    wrong = whole(-MOST_SHIFT, MOST_SHIFT)(text)
    if wrong or int(text):
        return wrong
    return "each leg may depart at its own time anyway"


def case(text: str, form: str) -> Optional[str]:
    """Returns what is said of a name that would do in capital letters, or None."""
    if re.fullmatch(form, text) and text != text.upper():
        return f"capital letters are wanted (write {text.upper()})"
    return None


def oddity(text: str) -> Optional[str]:
    """Returns what is odd about a text at first sight: that it is empty, has spaces around it, or a letter that isn't plain."""
    if not text:
        return "it is empty"
    if text != text.strip() and text.strip():
        return f"there is a space or another blank before or behind {plain(text.strip())}"
    for letter in text:
        if ord(letter) > 126 or ord(letter) < 32:
            told = unicodedata.name(letter, "which can't be seen").lower()
            return f"it has a letter that is none of A to Z: {plain(letter)} (U+{ord(letter):04X}, {told})"
    return None
