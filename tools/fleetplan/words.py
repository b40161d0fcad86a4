"""The words of a call: which commands and options there are, what forms their values have, and what is wrong with a call.

COMMANDS and OPTIONS are the one table of all words: help, hints and the checks of scripts are made from it."""

import datetime
import difflib
import os
import re
from typing import Any, Dict, List, NamedTuple, Optional, Sequence, Tuple

from fleetplan.forms import MOST_AIRCRAFT, Choice, Date, Form, Name, Number, Time
from fleetplan.tables import MOST_DAYS, TABLES, WRITTEN


class Word(NamedTuple):
    """A word behind a command: its form, what it is, and what stands for it where a call is shown."""

    form: Form
    means: str
    example: str


class Option(NamedTuple):
    """An option: its placeholder, its form (None: a flag), its value where it isn't given, and what it means."""

    placeholder: str
    form: Optional[Form]
    default: str
    means: str


class Command(NamedTuple):
    """A command: its words behind DIR, what it does, its options, and the files that it reads behind the tables and that it writes.
    `needs_tables` is whether it reads tables at all."""

    words: Dict[str, Word]
    does: str
    options: Tuple[str, ...]
    reads: Tuple[str, ...] = ()
    writes: Tuple[str, ...] = ()
    needs_tables: bool = True

    @property
    def names(self) -> List[str]:
        """The names of its words, DIR first."""
        return ["DIR", *self.words]


# How many aircraft, days and dates a number of a call may be.
MOST_MAINTENANCE, MOST_DATES = 30, 366
MOST_SEARCH = 1_000_000
# The most minutes that an aircraft may be asked to stay in a night for maintenance: a day, since no longer stay is too short.
MOST_LEAST_NIGHT = 1440
# How a search makes its choices.
FIXED, FREE = "fixed", "free"
OPTIONS = {
    "day-start": Option("HH:MM", Time(), "03:00", "when a day begins, in UTC, 00:00 to 23:59"),
    "period": Option("P", Number(1, MOST_DAYS), "1", "the days after which the schedule repeats, 1 to 7"),
    "windows": Option("", None, "", "reads windows.csv: legs may depart at several times; plan.csv tells which"),
    "optional": Option("", None, "", "reads optional.csv: legs may be left out, with - in the place of a fleet"),
    "through-max": Option("M", Number(0, 1439), "60", "the most minutes that a through flight may wait beyond the turn, 0 to 1439"),
    "days": Option("D", Number(1, MOST_MAINTENANCE), "3", "an aircraft comes to maintenance every D days at least, 1 to 30"),
    "least-night": Option(
        "MINUTES", Number(0, MOST_LEAST_NIGHT), "0", "the least minutes from arrival to departure in a night for maintenance, 0 to 1440"
    ),
    "visits": Option("V", Number(0, MOST_SEARCH), "200000", "how long to search for one rotation, 0 to 1000000"),
    "search": Option("WAY", Choice(FIXED, FREE), FIXED, "how the search makes its choices: fixed by rules, or free"),
    "nodes": Option("N", Number(0, MOST_SEARCH), "1000", "how often the search may split, 0 to 1000000"),
    "pivots": Option("P", Number(0, MOST_SEARCH), "20000", "how many pivots a subproblem may take in each run, 0 to 1000000"),
    "all-pivots": Option("", None, "", "lets each subproblem take all pivots that it needs, whatever --pivots says"),
    "json": Option("", None, "", "prints the summary as JSON"),
    "first-day": Option("FIRST", Date(), "DATE", "a date that is day 1 of the period, DATE or before it"),
}
# The options by which the tables of a folder are read: those of one call belong to the next one over the same folder.
READING = ("day-start", "period", "windows", "optional")
_ROUTING = (*READING, "through-max", "days", "least-night", "visits")
# The options of calls that tell dates.
_DATED = (*_ROUTING, "first-day")
_DATES = {"DATE": Word(Date(), "the first date", "2026-11-27"), "COUNT": Word(Number(1, MOST_DATES), "the number of dates", "7")}
COMMANDS = {
    "judge": Command(
        {}, "says of the plan in plan.csv whether it is legal, what it costs, and how many aircraft it uses", READING, ("plan.csv",)
    ),
    "solve": Command(
        {}, "finds a cheapest plan, or that there is none, with a proof of it and with rotations",
        (*_ROUTING, "search", "nodes", "pivots", "all-pivots", "json"), (), WRITTEN,
    ),
    "check": Command({}, "checks the proof in proof.txt, and the plan that comes with it", READING, ("proof.txt", "plan.csv")),
    "make": Command(
        {
            "NUMBER": Word(Number(0, 2_147_483_647), "the number that a schedule is drawn from", "7"),
            "LEGS": Word(Number(0, 1000, is_even=True), "the number of flights", "40"),
        },
        "makes a schedule of LEGS flights to play with, drawn from a number, and solves it",
        (), (), (*TABLES, *WRITTEN), needs_tables=False,
    ),
    "tails": Command(_DATES, "says which aircraft flies what, on COUNT dates from DATE on", _DATED, ("plan.csv",)),
    "due": Command(
        _DATES, "says which named aircraft flies what, so that each comes to maintenance by its own date", _DATED,
        ("tails.csv", "plan.csv"),
    ),
    "whatif": Command(
        {
            "FLEET": Word(Name(), "the fleet", "F1"),
            "COUNT": Word(Number(0, MOST_AIRCRAFT), "the number of its aircraft", "7"),
        },
        "says what the proof in proof.txt bounds where FLEET has COUNT aircraft; nothing is solved", READING, ("proof.txt", "plan.csv"),
    ),
}  # fmt: skip
HELP = ("help", "-h", "--help")
VERSION = ("--version", "-V", "version")
# What the program prints of words that are no call.
USAGE = f"usage: fleetplan {'|'.join(COMMANDS)} DIR [options]"
# The name and the text of the value of an option, and the words by which it reads.
Given = Tuple[str, int]


def read(option: str, text: str) -> Any:
    """Returns what the text of an option is read as (minutes, days, a number, a word), or None where it hasn't the option's form."""
    form = OPTIONS[option].form
    return form.read(text) if form else None


class Fault(NamedTuple):
    """What is wrong with a call: a sentence, and, where they are known, the words that would do, the word that is wrong, and what is wanted
    in its place."""

    text: str
    mended: Optional[List[str]] = None
    found: Optional[str] = None
    wanted: Optional[str] = None


class Call:
    """The words of a call, taken apart: `command`, or None; `words` after it, with their places in the call; `given`, of each
    option its text and the place of that; and `faults`."""

    def __init__(self, words: Sequence[str]) -> None:
        self.all = list(words)
        self.command = words[0] if words and words[0] in COMMANDS else None
        self.words: List[Tuple[int, str]] = []
        self.given: Dict[str, Given] = {}
        self.faults: List[Fault] = []
        self.wants_help = False
        if self.command:
            self._walk()
        else:
            self.wants_help = not words or words[0] in (*HELP, *VERSION)
        if not self.wants_help:
            self._find_faults()

    @property
    def wants_version(self) -> bool:
        """Whether the call asks for the version."""
        return self.all[:1] != [] and self.all[0] in VERSION

    @property
    def own(self) -> Command:
        """The command in the table of words."""
        return COMMANDS[self.command or ""]

    @property
    def folder(self) -> str:
        """The folder that the call names, empty where it names none."""
        return self.words[0][1] if self.words else ""

    @property
    def reading(self) -> List[str]:
        """The words of the options that say how tables are read, as far as they are given."""
        return [word for it in READING if it in self.given for word in (f"--{it}", self.given[it][0]) if word]

    def has(self, option: str) -> bool:
        """Returns whether a flag is given."""
        return option in self.given

    def value(self, option: str) -> Any:
        """Returns what an option is read as, also where it isn't given; None where its text doesn't read."""
        return read(option, self.given[option][0] if option in self.given else OPTIONS[option].default)

    def with_option(self, option: str, text: str) -> List[str]:
        """Returns the words of the same call with another value of an option."""
        words = list(self.all)
        if option not in self.given:
            return self.with_more(f"--{option}", text)
        place = self.given[option][1]
        words[place] = f"--{option}={text}" if words[place].startswith(f"--{option}=") else text
        return words

    def with_more(self, *options: str) -> List[str]:
        """Returns the words of the same call with options more."""
        end = self.all.index("--") if "--" in self.all else len(self.all)
        return [*self.all[:end], *options, *self.all[end:]]

    def with_word(self, place: int, *texts: str) -> List[str]:
        """Returns the words of the same call with others at a place."""
        return [*self.all[:place], *texts, *self.all[place + 1 :]]

    def _walk(self) -> None:
        """Takes the words behind the command apart, as the program's own reader does, and notes what it refuses."""
        at, ended = 1, False
        while at < len(self.all):
            word = self.all[at]
            if ended or word == "-" or not word.startswith("-"):
                self.words.append((at, word))
            elif word == "--":
                ended = True
            elif word in ("-h", "--help"):
                self.wants_help = True
            else:
                at = self._take_option(at)
            at += 1

    def _take_option(self, at: int) -> int:
        """Takes the option at a place, and returns the place of its last word."""
        word = self.all[at]
        name, has_value, value = word[2:].partition("=")
        if not word.startswith("--") or name not in self.own.options:
            self.faults.append(self._unknown(at))
            return at
        if name in self.given:
            self.faults.append(Fault(f"--{name} stands there twice: once is enough", found=word))
        form = OPTIONS[name].form
        if form is None:
            if has_value:
                self.faults.append(Fault(f"--{name} takes no value", self.with_word(at, f"--{name}"), word, f"--{name}"))
            self.given[name] = ("", at)
            return at
        if has_value:
            self.given[name] = (value, at)
            return at
        following = self.all[at + 1 : at + 2]
        if not following or (following[0].startswith("-") and following[0] != "-"):
            self.faults.append(Fault(f"--{name} wants a value behind it: {form.form}", None, word, form.form))
            return at
        self.given[name] = (following[0], at + 1)
        return at + 1

    def _unknown(self, at: int) -> Fault:
        """Returns the fault of an option that the command doesn't have, with the nearest one that it has."""
        word, own = self.all[at], self.own.options
        name, equals, value = word.lstrip("-").partition("=")
        if not own:
            return Fault(f"{self.command} takes no option, and {word} is one", found=word)
        if name in OPTIONS and name not in own:
            others = ", ".join(it for it in COMMANDS if name in COMMANDS[it].options)
            return Fault(f"{self.command} has no option --{name}: it is one of {others}", found=word)
        if re.fullmatch(r"-[0-9.]+", word):
            return Fault(f"{word} begins with a minus, so it is read as an option, and no number here is negative", found=word)
        near = difflib.get_close_matches(name.lower(), own, 1, 0.6)
        near = near or [it for it in own if name and it.startswith(name.lower())][:1]
        if not near:
            return Fault(f"{self.command} has no option {word}", found=word)
        mended = self.with_word(at, f"--{near[0]}{equals}{value}")
        return Fault(f"{self.command} has no option {word}: the nearest is --{near[0]}", mended, word, f"--{near[0]}")

    def _find_faults(self) -> None:
        if self.command is None:
            self.faults.append(self._no_command())
        elif not self.faults:
            self._count_words()
        if not self.faults:
            self._read_values()

    def _no_command(self) -> Fault:
        """Returns the fault of a call whose first word is no command."""
        word = self.all[0]
        near = difflib.get_close_matches(word.lower(), COMMANDS, 1, 0.6)
        if near:
            return Fault(f"{word} is no command: the nearest is {near[0]}", [near[0], *self.all[1:]], word, near[0])
        if os.path.isdir(word):
            return Fault(f"{word} is a folder: the command comes first", ["solve", *self.all], word, "a command")
        if word.startswith("-"):
            return Fault(f"{word} stands before the command: the command is the first word", None, word, "a command")
        return Fault(f"{word} is no command: the first word is one of {', '.join(COMMANDS)}", None, word, "a command")

    def _count_words(self) -> None:
        names = self.own.names
        lacking = names[len(self.words) :]
        if lacking:
            text = f"{self.command} wants {' '.join(names)}, and there is no {'; no '.join(map(self._told, lacking))}"
            rest = ["DIR" if it == "DIR" else self.own.words[it].example for it in lacking]
            self.faults.append(Fault(text, [*self.all, *rest] if "--" not in self.all else None, wanted=" ".join(names)))
        for _, word in self.words[len(names) :]:
            text = f"{word or 'an empty word'} is one word too many: {self.command} wants {' '.join(names)}"
            self.faults.append(Fault(text, None, word, " ".join(names)))

    def _told(self, name: str) -> str:
        """Returns a word of the command with what it is."""
        if name == "DIR":
            return "DIR, the folder of the tables"
        return f"{name}, {self.own.words[name].means}: {self.own.words[name].form.form}"

    def _read_values(self) -> None:
        for option, (text, _) in self.given.items():
            form = OPTIONS[option].form
            if form is not None and form.read(text) is None:
                better = form.mended(text)
                mended = self.with_option(option, better) if better else None
                self.faults.append(Fault(f"--{option} {text or 'without a value'}: it wants {form.form}", mended, text, form.form))
        for (name, word), (place, text) in zip(self.own.words.items(), self.words[1:]):
            if word.form.read(text) is None:
                better = word.form.mended(text)
                mended = self.with_word(place, better) if better else None
                self.faults.append(Fault(f"{name} is {text or 'empty'}: {word.means} is {word.form.form}", mended, text, word.form.form))
        if self.own.words is _DATES and not self.faults:
            first, count = (word.form.read(text) for word, (_, text) in zip(_DATES.values(), self.words[1:]))
            if first.toordinal() + count - 1 > datetime.date.max.toordinal():
                self.faults.append(Fault(f"{count} dates from {first} on go beyond 9999-12-31"))
            self._compare_dates(first)

    def _compare_dates(self, date: datetime.date) -> None:
        """Notes a first day of the period that comes after the first date, with the last one that doesn't."""
        first = self.value("first-day")
        if first is None or first <= date:
            return
        earlier = date.toordinal() - (date - first).days % self.value("period")
        mended = self.with_option("first-day", datetime.date.fromordinal(earlier).isoformat()) if earlier > 0 else None
        helps = "any earlier day 1 of the period will do" if mended else "the calendar has no earlier day 1 of the period"
        text = f"--first-day is {first}, after DATE, {date}: {helps}"
        self.faults.append(Fault(text, mended, first.isoformat(), f"a day 1 of the period, {date} or before it"))
