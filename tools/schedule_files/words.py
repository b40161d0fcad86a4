"""The words of a call of tools/ssim."""

import datetime
import re
from typing import Dict, FrozenSet, List, Mapping, Optional, Sequence, Tuple, Union

from costing.figures import Paths
from fleetplan.forms import TRILLION
from fleetplan.tables import ASKED
from schedule_files.changing import Changing
from schedule_files.days import ALL_DAYS, Dates
from schedule_files.laying import Laying
from schedule_files.selecting import Choice
from schedule_files.figures import FIGURES, Figured
from schedule_files.keeping import Keeping
from schedule_files.tables import Sources

TABLES = {
    "date": "YYYY-MM-DD",
    "week": "YYYY-MM-DD",
    "stations": "FILE",
    "fleets": "FILE",
    "costs": "FILE",
    "windows": "FILE",
    "optional": "FILE",
    "types": "T,..",
    "types-only": "T,..",
    "stations-only": "S,..",
    "service": "LETTERS",
    "through-value": "V",
    "onward-value": "V",
    "change-cost": "N",
    "keep": "FILE",
    "airline": "XX",
    "map": "T=F",
    "surface": None,
    "anyway": None,
}
# The options that may stand several times.
SEVERAL = ("map",)
PLAN = {"whole-season": None, "days": "12345", "anyway": None, "in-place": None}
# The files of figures that stand in the place of --costs. With them --types is one, and --types-only says what it says else.
NEW = {it: "FILE" for it in FIGURES if it not in TABLES}
# How many days tables are of, by the option that says the first one.
DAYS = {"date": 1, "week": 7}


# How many options of `tables` stand in one line of the usage.
IN_LINE = 4


# Of each option the form of its value, or None where it has none.
Options = Mapping[str, Optional[str]]


def in_lines(options: Options) -> str:
    """Returns options in lines."""
    texts = [f"[--{name}{f' {form}' if form else ''}]" for name, form in options.items() if name not in DAYS]
    return ("\n" + " " * 18).join(" ".join(texts[at : at + IN_LINE]) for at in range(0, len(texts), IN_LINE))


USAGE = f"""usage: tools/ssim tables FILE DIR {" | ".join(f"--{it} {TABLES[it]}" for it in DAYS)}
                  {in_lines(TABLES)}
                  [{" ".join(f"--{it} FILE" for it in FIGURES[:2])} {" ".join(f"[--{it} FILE]" for it in FIGURES[2:])}]
       tools/ssim plan FILE DIR NEW {in_lines(PLAN)}
       tools/ssim plan FILE DIR --in-place [OPTION ..]
docs/formats.md#schedule-files says what they do"""


class Usage(Exception):
    """Words that are no call, with what is wrong with them, and what a call looks like."""

    def __init__(self, text: str = "") -> None:
        super().__init__(text)
        self.lines = [*([f"ssim: {text}"] if text else []), *USAGE.splitlines()]


def given(words: Sequence[str], options: Options) -> Tuple[List[str], Dict[str, str]]:
    """Returns the plain words and the values of options."""
    rest: List[str] = []
    found: Dict[str, str] = {}
    left = iter(words)
    for word in left:
        name, has_value, value = word[2:].partition("=")
        if word == "--":
            rest.extend(left)
        elif not word.startswith("-") or word == "-":
            rest.append(word)
        elif not word.startswith("--") or name not in options:
            raise Usage(f"{word.partition('=')[0]} is no option")
        elif name in found and name not in SEVERAL:
            raise Usage(f"--{name} stands twice")
        elif options[name] is None:
            if has_value:
                raise Usage(f"--{name} takes no value")
            found[name] = name
        else:
            value = value if has_value else next(left, "")
            if not value:
                raise Usage(f"--{name} wants a value: {options[name]}")
            found[name] = f"{found[name]} {value}" if name in found else value
    return rest, found


def dates(found: Mapping[str, str]) -> Dates:
    """Returns the days that are asked for, by the one option that says them."""
    options = [it for it in DAYS if it in found]
    if len(options) != 1:
        raise Usage("--date and --week stand both" if options else "")
    return Dates(day(options[0], found[options[0]]), DAYS[options[0]])


def day(option: str, text: str) -> int:
    """Returns the day of YYYY-MM-DD, within the century that schedule files know."""
    if re.fullmatch(r"20[0-9]{2}-[0-9]{2}-[0-9]{2}", text):
        try:
            return datetime.date.fromisoformat(text).toordinal()
        except ValueError:
            pass
    raise Usage(f"--{option} {text}: a day as 2026-11-30 is wanted, of the years 2000 to 2099")


def figures(found: Mapping[str, str]) -> Optional[Figured]:
    """Returns the files of figures that a call names, or None."""
    demand, types, *others = FIGURES
    if demand not in found:
        for it in others:
            if it in found:
                raise Usage(f"--{it} wants --{demand} FILE and --{types} FILE too")
        return None
    if types not in found:
        raise Usage(f"--{demand} wants --{types} FILE too")
    for it, other in ((demand, "costs"), ("skips", "optional")):
        if it in found and other in found:
            raise Usage(f"--{it} and --{other} stand both")
    return Figured(Paths(found[demand], found[types], found.get("fuel"), found.get("fees")), found.get("skips"))


def listed(found: Mapping[str, str], name: str, form: str) -> Optional[FrozenSet[str]]:
    """Returns the set of an option's values between commas, or None where it isn't given."""
    if name not in found:
        return None
    values = frozenset(found[name].split(","))
    bad = [it for it in sorted(values) if not re.fullmatch(form, it)]
    if bad:
        raise Usage(f"--{name} {found[name]}: {bad[0] or 'nothing'} is none of its form")
    return values


class TablesCall:
    """A call of `tables`: its file, its folder, the days, the choice of legs and the caller's files."""

    def __init__(self, words: Sequence[str]) -> None:
        rest, found = given(words, {**TABLES, **NEW})
        if len(rest) != 2:
            raise Usage
        self.path, self.folder = rest
        forms: Options = {**TABLES, **NEW}
        self.keeping = Keeping([self.path, *(found[it] for it in found if forms[it] == "FILE")], "anyway" in found)
        figured = figures(found)
        self.dates = dates(found)
        services = listed(found, "service", "[A-Z]+")
        services = services and frozenset("".join(services))
        if not figured and {"types", "types-only"} <= found.keys():
            raise Usage("--types and --types-only stand both")
        chosen = "types" if not figured and "types" in found else "types-only"
        types, stations = listed(found, chosen, "[A-Z0-9]{3}"), listed(found, "stations-only", "[A-Z]{3}")
        self.choice = Choice("surface" in found, services, types, stations, airline(found), families(found))
        asked = {it: found[it] for it in ASKED if it in found}
        changing = Changing(amount(found, "change-cost"), found.get("keep"))
        onward = amount(found, "onward-value") if "onward-value" in found else None
        stations_file, fleets_file, value = found.get("stations"), found.get("fleets"), amount(found, "through-value")
        self.sources = Sources(stations_file, fleets_file, found.get("costs"), value, asked, figured, changing, onward)


def amount(found: Mapping[str, str], name: str) -> int:
    """Returns a value in units of currency, 0 where it isn't given."""
    value = found.get(name, "0")
    if not re.fullmatch("[0-9]{1,20}", value) or int(value) > TRILLION:
        raise Usage(f"--{name} {value}: a whole number from 0 to {TRILLION} is wanted")
    return int(value)


def airline(found: Mapping[str, str]) -> Optional[str]:
    """Returns the airline that is asked for, or None."""
    text = found.get("airline")
    if text is not None and not re.fullmatch("[A-Z0-9]{2,3}", text):
        raise Usage(f"--airline {text}: two or three letters A to Z and digits are wanted")
    return text


def families(found: Mapping[str, str]) -> Dict[str, str]:
    """Returns the fleet of each aircraft type that isn't a fleet of its own."""
    fleets: Dict[str, str] = {}
    for text in found.get("map", "").split():
        kind, _, fleet = text.partition("=")
        if not re.fullmatch("[A-Z0-9]{3}=[A-Z0-9]{3}", text) or kind == fleet:
            raise Usage(f"--map {text}: two aircraft types as 319=320 are wanted")
        if kind in fleets:
            raise Usage(f"--map {text}: {kind} is {fleets[kind]} already")
        fleets[kind] = fleet
    both = sorted(set(fleets) & set(fleets.values()))
    if both:
        raise Usage(f"--map {both[0]}={fleets[both[0]]}: other types are {both[0]}, so that can't be {fleets[both[0]]}")
    return fleets


class PlanCall:
    """A call of `plan`: its file, its folder, the new file, on which dates the plan is laid, whether the new file is written where the fleets
    can't fly it, and whether it may stand in the place of the file that is read."""

    def __init__(self, words: Sequence[str]) -> None:
        rest, found = given(words, PLAN)
        self.is_in_place = "in-place" in found
        if len(rest) == 2 and self.is_in_place:
            rest.append(rest[0])
        if len(rest) != 3:
            raise Usage
        self.path, self.folder, self.new = rest
        if self.is_in_place and self.new != self.path:
            raise Usage("--in-place writes FILE itself, and NEW is another")
        self.laying = Laying("whole-season" in found, weekdays(found))
        if self.laying.is_season and self.laying.days:
            raise Usage("--whole-season and --days stand both")
        self.is_anyway = "anyway" in found


def weekdays(found: Mapping[str, str]) -> str:
    """Returns the days of operation that are asked for, none where none are."""
    text = found.get("days", "")
    if text and "".join(it for it in ALL_DAYS if it in text) != text:
        raise Usage(f"--days {text}: days of operation as 12345 are wanted, 1 for Monday to 7 for Sunday")
    return text


def read_words(words: Sequence[str]) -> Union[TablesCall, PlanCall]:
    """Returns the call that words are, or raises Usage."""
    if words and words[0] == "tables":
        return TablesCall(words[1:])
    if words and words[0] == "plan":
        return PlanCall(words[1:])
    raise Usage
