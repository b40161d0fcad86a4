"""The scenarios of a run, as the records of scenarios.csv tell them."""

import os
import re
import shlex
from typing import Dict, List, NamedTuple, Optional, Sequence

from fleetplan.errors import Unread
from fleetplan.records import records_of
from fleetplan.settings import Settings
from fleetplan.tables import MOST_DAYS, TABLES
from fleetplan.words import Call
from steps.changes import FLAG_OF, read_change
from steps.figures import FILES, NEEDED, PRICING, UNDONE
from steps.flagged import FLAGGED
from steps.products import MOST, named, placed, products, too_many

# The columns that each file has, and those that it may have behind them.
HEADER = ("scenario", "words", "folder", "changes")
MORE = ("base", "times")
HEADERS = (HEADER, (*HEADER, "base"), (*HEADER, "times"), (*HEADER, *MORE))
FORM = f"{','.join(HEADER)}, and maybe {' and '.join(MORE)} behind them"
NAME = re.compile(r"[A-Za-z0-9][A-Za-z0-9_.+-]{0,63}")
TIMES = re.compile("[0-9]{0,6}")


class Told(NamedTuple):
    """What a record tells of a scenario, as it stands there: its words, its folder, and its changes."""

    words: List[str]
    folder: str
    changes: List[str]


class Scenario:
    """A scenario: its name, the words for `solve`, the folder that is laid over the base (None: none), the texts of its changes; `told`, the
    same as its record has it; `base`, the name of the scenario that it is compared with, its own where that is itself; and how many `times`
    a year such a day is flown, None where that isn't told."""

    def __init__(self, name: str, told: Told, words: List[str], folder: Optional[str]) -> None:
        self.name, self.told, self.words, self.folder, self.changes = name, told, words, folder, told.changes
        self.base = name
        self.times: Optional[int] = None

    def files(self, base: str) -> List[str]:
        """Returns the files that its tables come from: those of its own folder, and for the others those of the base."""
        return [self.own(it) or os.path.join(base, it) for it in (*TABLES, *self.flagged(base), *self.figures(base))]

    def figures(self, base: str) -> List[str]:
        """Returns the files of a planner's own figures by which its changes price pairs, none where they don't."""
        if not any(it.split()[0] in PRICING for it in self.changes):
            return []
        return [it for it in FILES if it in NEEDED or self.own(it) or os.path.lexists(os.path.join(base, it))]

    def flagged(self, base: str) -> List[str]:
        """Returns the tables that its words want beside the five, but those that its changes alone fill."""
        filled = {FLAG_OF.get(it.split()[0]) for it in self.changes}
        wanted = ((flag, name) for flag, name in FLAGGED.items() if flag in self.words)
        return [name for flag, name in wanted if flag not in filled or self.own(name) or os.path.lexists(os.path.join(base, name))]

    @property
    def period(self) -> str:
        """After how many days the schedule repeats before it is changed: as the words say, whatever stands there, or 7 at most where
        a day alone is wanted."""
        return str(MOST_DAYS) if is_one_day(self.changes) else period_in(self.words) or "1"

    def own(self, table: str) -> Optional[str]:
        """Returns the path of a table in its own folder, or None where none stands there."""
        path = self.folder and os.path.join(self.folder, table)
        return path if path and os.path.lexists(path) else None


def scenarios_of(path: str, base: Optional[str] = None) -> Dict[str, Scenario]:
    """Returns the scenarios of a file by their names, in its order, or raises Unread with the record that is wrong. What their words don't
    say the settings of the base tables do, where there is such a folder."""
    found: Dict[str, Scenario] = {}
    records: Dict[str, int] = {}
    settings = Settings(base) if base else None
    header: Sequence[str] = HEADER
    for record in records_of(path):
        texts = tuple(record.texts)
        if record.number == 1:
            if texts not in HEADERS:
                raise Unread.at(path, 1, f"{record}, it should be {FORM}")
            header = texts
            continue
        try:
            for scenario in scenarios_in(fields_of(texts, header), os.path.dirname(path), settings):
                if scenario.name in found:
                    raise Unread(f"{scenario.name} stands twice")
                found[scenario.name], records[scenario.name] = scenario, record.number
                if len(found) > MOST:
                    raise Unread(too_many(len(found)))
        except Unread as error:
            raise Unread.at(path, record.number, str(error)) from None
    if not found:
        raise Unread.of(path, f"has no scenario below a header {','.join(HEADER)}")
    settle(path, found, records)
    return found


def fields_of(texts: Sequence[str], header: Sequence[str]) -> Dict[str, str]:
    """Returns the fields of a record by the names of their columns, empty where a column isn't there, or raises Unread."""
    if len(texts) != len(header):
        raise Unread(f"it has {len(texts)} fields, it should have {len(header)}")
    return {**dict.fromkeys(MORE, ""), **dict(zip(header, texts))}


def scenarios_in(fields: Dict[str, str], beside: str, settings: Optional[Settings]) -> List[Scenario]:
    """Returns the scenarios of a record: one, or one for each choice of its lists and ranges."""
    if not TIMES.fullmatch(fields["times"]):
        raise Unread(f'it is flown "{fields["times"]}" times a year, it should be a whole number of 6 digits at most')
    made = []
    for words, folder, changes in products(fields["words"], fields["folder"], fields["changes"]):
        chosen = (*words.chosen, *folder.chosen, *changes.chosen)
        name = named(fields["scenario"], chosen)
        scenario = scenario_of((name, words.text, folder.text, changes.text), beside, settings)
        scenario.base = placed(fields["base"].strip(), chosen)
        scenario.times = int(fields["times"]) if fields["times"] else None
        made.append(scenario)
    return made


def settle(path: str, found: Dict[str, Scenario], records: Dict[str, int]) -> None:
    """Gives each scenario its base, which is the first one where its record names none, and the times of that where it has none of its
    own; or raises Unread."""
    first = next(iter(found))
    for name, it in found.items():
        it.base = it.base or first
        if it.base not in found:
            raise Unread.at(path, records[name], f"{name} is compared with {it.base}, and no scenario has that name", "base")
    for it in found.values():
        if it.times is None and it.base != it.name:
            it.times = found[it.base].times


def scenario_of(fields: Sequence[str], beside: str, settings: Optional[Settings] = None) -> Scenario:
    """Returns the scenario of a name, words, a folder and changes. Its folder counts from the file's own one."""
    name, words, folder, changes = fields
    if not NAME.fullmatch(name):
        raise Unread(f'a scenario is named "{name}", it should be 1 to 64 of A to Z, a to z, 0 to 9, ".", "_", "+" and "-"')
    place = os.path.join(beside, folder) if folder else None
    names = (*TABLES, *FLAGGED.values(), *FILES)
    if place and not any(os.path.isfile(os.path.join(place, it)) for it in names):
        raise Unread(f"the folder {place} has none of {', '.join(names)}")
    texts = [it.strip() for it in changes.split(";") if it.strip()]
    for it in texts:
        read_change(it)
    want_order(texts)
    if is_one_day(texts) and period_in(words_of(words)):
        raise Unread("only-day leaves a schedule of one day, so the words may not have --period")
    whole = [*words_of(words), *(added_to(words_of(words), texts, settings) if settings else [])]
    return Scenario(name, Told(words_of(words), folder, texts), with_flags(whole, texts), place)


def want_order(texts: Sequence[str]) -> None:
    """Raises Unread where a change would price pairs whose costs another one has changed before."""
    names = [it.split()[0] for it in texts]
    late = [it for at, it in enumerate(texts) if names[at] in PRICING and UNDONE in names[:at]]
    if late:
        raise Unread(f'"{late[0]}" prices all pairs anew, so it stands before a change of {UNDONE}')


def added_to(words: Sequence[str], texts: Sequence[str], settings: Settings) -> List[str]:
    """Returns the words that settings add to those of a scenario. Where one day alone is wanted no period is added."""
    call = Call(["solve", ".", *words])
    return settings.given(it for it in call.own.options if it not in call.given and not (it == "period" and is_one_day(texts)))


def is_one_day(texts: Sequence[str]) -> bool:
    """Returns whether changes leave the flights of one day alone."""
    return any(it.startswith("only-day ") for it in texts)


def period_in(words: Sequence[str]) -> Optional[str]:
    """Returns the text of the period that the words of a call give, or None."""
    return Call(["solve", ".", *words]).given.get("period", (None, 0))[0]


def with_flags(words: Sequence[str], texts: Sequence[str]) -> List[str]:
    """Returns the words of a call with the flags that changes bring."""
    brought = dict.fromkeys(FLAG_OF[it.split()[0]] for it in texts if it.split()[0] in FLAG_OF)
    return [*words, *(it for it in brought if it not in words)]


def words_of(text: str) -> List[str]:
    """Returns the words of a call, as a shell reads them."""
    try:
        return shlex.split(text)
    except ValueError as error:
        raise Unread(f"the words {text} don't read: {error}") from None
