"""The settings of a folder: what stands in its settings.csv, for words that a call over it needn't say."""

import os
from typing import Dict, Iterable, List, Optional

from fleetplan.errors import Unread
from fleetplan.forms import Form
from fleetplan.records import record_of, records_of, text_of
from fleetplan.tables import ASKED, DATED
from fleetplan.texts import plain
from fleetplan.words import OPTIONS, Call

NAME = "settings.csv"
HEADER = ("word", "value")
# The date of day 1.
FIRST_DAY = "first-day"
YES, NO = "yes", "no"
# Of each word the form of its value, None of a flag: yes or no. What a call prints is its own matter.
FORMS: Dict[str, Optional[Form]] = {name: option.form for name, option in OPTIONS.items() if name != "json"}


class Settings:
    """The words of a settings.csv with their values, none where there is no such file."""

    def __init__(self, folder: str) -> None:
        self.path = os.path.join(folder, NAME)
        self.values: Dict[str, str] = {}
        if os.path.lexists(self.path):
            self._read()

    def _read(self) -> None:
        """Reads the file, or raises Unread with the line that isn't of its form."""
        lines: Dict[str, int] = {}
        for record in records_of(self.path):
            texts = record.texts
            wrong = _wrong_header(texts) if record.number == 1 else _wrong(texts)
            if not wrong and texts[0] in lines:
                wrong = f"{texts[0]} stands in line {lines[texts[0]]} too: take one of the two away"
            if wrong:
                raise Unread(f"{self.path}, line {record.line}: {wrong}", file=self.path, record=record.line, column=None)
            lines[texts[0]] = record.line
            if record.number > 1:
                self.values[texts[0]] = texts[1]
        if not lines:
            raise Unread.of(self.path, f"is empty: its first line has to be {','.join(HEADER)}")

    def text(self, option: str) -> Optional[str]:
        """Returns the value of an option of the program, empty of a flag, or None where the settings don't give it."""
        value = self.values.get(option)
        return value if value is None or FORMS[option] is not None else "" if value == YES else None

    def given(self, options: Iterable[str]) -> List[str]:
        """Returns words for those of some options that the settings give."""
        found = [(it, self.text(it)) for it in options]
        return [f"--{it}={text}" if text else f"--{it}" for it, text in found if text is not None]

    def added(self, call: Call) -> List[str]:
        """Returns the words for a call: of the options that its command takes and that it doesn't give itself."""
        return self.given(it for it in call.own.options if it not in call.given)


def _wrong_header(texts: List[str]) -> Optional[str]:
    """Says what is wrong with the first record, or returns None."""
    return None if tuple(texts) == HEADER else f"it is {plain(','.join(texts))}, and has to be {','.join(HEADER)}"


def _wrong(texts: List[str]) -> Optional[str]:
    """Says what is wrong with another record, or returns None."""
    if len(texts) != len(HEADER):
        return f"{plain(','.join(texts))} isn't a word and its value"
    word, value = texts
    if word not in FORMS:
        return f"{plain(word) or 'an empty word'} is none of {', '.join(FORMS)}"
    form = FORMS[word]
    if form is None:
        return None if value in (YES, NO) else f"{word} is {plain(value) or 'empty'}, and it wants {YES} or {NO}"
    return None if form.read(value) is not None else f"{word} is {plain(value) or 'empty'}, and it wants {form.form}"


def renewed(folder: str, values: Dict[str, str]) -> str:
    """Returns the text of a settings.csv with these values, in which the other words of the folder's own one stay."""
    kept = {**Settings(folder).values, **values}
    return text_of(HEADER, [(it, kept[it]) for it in FORMS if it in kept])


def doubts(call: Call, settings: Settings) -> List[str]:
    """Says what of a folder a call leaves aside without saying so: tables, and days of flights. `call` has the words of the settings."""
    aside = [it for it in ASKED if it in call.own.options and not call.has(it) and settings.values.get(it) != NO]
    aside = [it for it in aside if os.path.isfile(os.path.join(call.folder, ASKED[it]))]
    told = [f"{ASKED[it]} of {call.folder} is not read: --{it} reads it" for it in aside]
    legs = os.path.join(call.folder, "legs.csv")
    if "period" in call.own.options and "period" not in call.given and os.path.isfile(legs):
        first = record_of(legs, 1)
        if first and tuple(first.texts) == DATED:
            told.append(f"legs.csv of {call.folder} tells days, and --period says after how many days they repeat: without it 1")
    return told
